/* Runs two creates of one database in each order of their calls on its names, with up to three switches.
 *
 *   orders PROGRAM PART OF HOW [STALE]
 *
 * Both make x in the current folder, the first of one.txt and the second of two.txt, beside the database
 * in old.cdb. HOW has a letter for each: i makes it in place, r replaces it by a temporary file. With STALE
 * a file of that name's bytes has the temporary name before. one.cdb and two.cdb are what they are to make.
 * Each is stopped before each call on a name and before each lock. The first
 * makes some of these calls, then the second some, then the first some more; then the second runs to its
 * end, and the first to its. An order in which one ends before its turn is over is the last of its kind.
 * Of all orders this makes one part of so many: those whose first turn has a number of calls that leaves
 * PART - 1 over.
 *
 * A create that renamed answers 0. One that did not answers 111 and says that a file cannot be opened, or
 * that the database cannot be renamed; beside one in place each renames. At each switch x is one of the three
 * databases, if both replace it.
 *
 * A create in place answers 0 if it got the lock of x, and if no other renamed between the call by which it
 * opened x and its last look at x, which comes after its sync. Without the lock it answers 111 and says that a
 * file cannot be opened, else that the database cannot be renamed.
 *
 * In the end x is that of the create that answered 0 and renamed last, or looked at x last in place; or the old
 * one, if none answered 0. Nothing has the temporary name then. Each order that leaves something else is told,
 * in a line.
 */
#define _GNU_SOURCE
#include <errno.h>
#include <fcntl.h>
#include <signal.h>
#include <stdio.h>
#include <stdlib.h>
#include <string.h>
#include <sys/ptrace.h>
#include <sys/stat.h>
#include <sys/syscall.h>
#include <sys/wait.h>
#include <linux/ptrace.h>
#include <unistd.h>

#define NAME "x"
#define TEMPORARY "x.tmp"
#define LONGEST 65536
/* No create makes so many calls on names. */
#define ALL 1000

struct bytes {
	size_t size;
	char text[LONGEST];
};

/* A create that runs. */
struct create {
	pid_t process;
	int is_in_place;
	/* What the call does that it makes now. */
	enum { NOTHING, OPENS, LOOKS, LOCKS, RENAMES, SYNCS } does;
	/* The steps of its last call that did so, or 0. */
	int opened, looked, locked, renamed, synced;
	/* Its wait status, once it has ended. */
	int has_ended, status;
	const char *errors;
};

static struct bytes databases[3], stale;
static const char *program;
/* How many calls on names and locks, and syncs, both have made. */
static int steps;
/* Whether a create makes the database in place. */
static int is_one_in_place;

static void fail(const char *what)
{
	perror(what);
	exit(2);
}

/* Reads a file, and answers whether it is there. */
static int take(const char *name, struct bytes *into)
{
	int file = open(name, O_RDONLY);
	if (file < 0 && errno == ENOENT)
		return 0;
	ssize_t size = file < 0 ? -1 : read(file, into->text, LONGEST);
	if (size < 0)
		fail(name);
	into->size = size;
	close(file);
	return 1;
}

static void give(const char *name, const struct bytes *what)
{
	unlink(name);
	int file = open(name, O_WRONLY | O_CREAT | O_EXCL, 0644);
	if (file < 0 || write(file, what->text, what->size) != (ssize_t)what->size)
		fail(name);
	close(file);
}

/* Which of the databases x is, or -1. */
static int found(void)
{
	static struct bytes now;
	if (!take(NAME, &now))
		return -1;
	for (int which = 0; which < 3; which++)
		if (now.size == databases[which].size && !memcmp(now.text, databases[which].text, now.size))
			return which;
	return -1;
}

static void redirect(const char *name, int flags, int number)
{
	int file = open(name, flags, 0644);
	if (file < 0 || dup2(file, number) < 0)
		_exit(99);
	close(file);
}

/* Begins a create, which is stopped before it is the program. */
static struct create begun(int is_in_place, const char *text, const char *errors)
{
	struct create begun = { .is_in_place = is_in_place, .errors = errors };
	int status;
	begun.process = fork();
	if (begun.process == 0) {
		redirect(text, O_RDONLY, 0);
		redirect(errors, O_WRONLY | O_CREAT | O_TRUNC, 2);
		if (ptrace(PTRACE_TRACEME, 0, NULL, NULL) < 0)
			_exit(98);
		if (is_in_place)
			execl(program, program, "-c", "-t", "-", NAME, (char *)NULL);
		else
			execl(program, program, "-c", NAME, (char *)NULL);
		_exit(97);
	}
	if (begun.process < 0 || waitpid(begun.process, &status, 0) < 0)
		fail("a create");
	if (!WIFSTOPPED(status)) {
		fprintf(stderr, "a create cannot be stopped: %d\n", WEXITSTATUS(status));
		exit(2);
	}
	if (ptrace(PTRACE_SETOPTIONS, begun.process, NULL, PTRACE_O_TRACESYSGOOD | PTRACE_O_EXITKILL) < 0)
		fail("ptrace");
	return begun;
}

/* Whether the process has one of the two names at this place. */
static int is_name(pid_t process, unsigned long place)
{
	union {
		long word;
		char text[sizeof(long)];
	} read;
	errno = 0;
	read.word = ptrace(PTRACE_PEEKDATA, process, place, NULL);
	return errno == 0 && (!strncmp(read.text, NAME, sizeof read) || !strncmp(read.text, TEMPORARY, sizeof read));
}

/* Whether a create is to be stopped before this call. A sync is noted alone. */
static int is_chosen(struct create *create, const struct ptrace_syscall_info *call)
{
	unsigned long a = call->entry.args[0], b = call->entry.args[1], name = b;
	create->does = NOTHING;
	switch (call->entry.nr) {
#ifdef SYS_open
	case SYS_unlink:
		name = a;
		break;
	case SYS_open:
		name = a;
		create->does = OPENS;
		break;
	case SYS_stat:
	case SYS_lstat:
		name = a;
		create->does = LOOKS;
		break;
	case SYS_rename:
		name = a;
		create->does = RENAMES;
		break;
#endif
	case SYS_renameat:
	case SYS_renameat2:
		create->does = RENAMES;
		break;
	case SYS_openat:
		create->does = OPENS;
		break;
	case SYS_unlinkat:
		break;
	case SYS_statx:
#ifdef SYS_newfstatat
	case SYS_newfstatat:
#endif
		create->does = LOOKS;
		break;
	case SYS_flock:
		create->does = LOCKS;
		return 1;
	case SYS_fsync:
		create->does = SYNCS;
		return 0;
	default:
		return 0;
	}
	if (is_name(create->process, name))
		return 1;
	create->does = NOTHING;
	return 0;
}

/* Notes the step of a call that was done. */
static void note(struct create *create)
{
	int *const of[] = {
		[OPENS] = &create->opened, [LOOKS] = &create->looked,
		[LOCKS] = &create->locked, [RENAMES] = &create->renamed, [SYNCS] = &create->synced
	};
	if (create->does != NOTHING)
		*of[create->does] = ++steps;
	create->does = NOTHING;
}

/* Lets a create go on to the begin or the end of its next call, or to its own end. */
static void go_on(struct create *create)
{
	int status, passed = 0;
	do {
		if (ptrace(PTRACE_SYSCALL, create->process, NULL, passed) < 0)
			fail("ptrace");
		if (waitpid(create->process, &status, 0) < 0)
			fail("waitpid");
		passed = WIFSTOPPED(status) ? WSTOPSIG(status) : 0;
	} while (WIFSTOPPED(status) && passed != (SIGTRAP | 0x80));
	if (!WIFSTOPPED(status)) {
		create->has_ended = 1;
		create->status = status;
	}
}

/* Lets a create make so many of its chosen calls, and answers whether it has not ended by then. It is
 * stopped before the next chosen call. */
static int make(struct create *create, int calls)
{
	struct ptrace_syscall_info call;
	int done = 0;
	for (;;) {
		go_on(create);
		if (create->has_ended)
			return 0;
		if (ptrace(PTRACE_GET_SYSCALL_INFO, create->process, sizeof call, &call) < 0)
			fail("ptrace");
		if (call.op == PTRACE_SYSCALL_INFO_ENTRY) {
			if (!is_chosen(create, &call))
				continue;
			if (done == calls)
				return 1;
			done++;
		} else if (call.op == PTRACE_SYSCALL_INFO_EXIT && call.exit.rval >= 0) {
			note(create);
		}
	}
}

/* Whether the file of a create in place lost its name to the other create. */
static int has_lost(const struct create *create, const struct create *other)
{
	return other->renamed > create->opened && other->renamed < create->looked;
}

/* The step by which a create published, or 0. */
static int published(const struct create *create, const struct create *other)
{
	if (!create->is_in_place)
		return create->renamed;
	return create->locked && !has_lost(create, other) ? create->looked : 0;
}

/* What is wrong with a create that has ended, or NULL. */
static const char *wrong_with(const struct create *create, const struct create *other)
{
	static struct bytes said;
	static const char *const lines[] = {
		"cdb: file cannot be opened\n", "cdb: database cannot be renamed\n"
	};
	take(create->errors, &said);
	if (!WIFEXITED(create->status))
		return "a create was killed";
	if (create->is_in_place && create->looked < create->synced)
		return "a create in place does not look at its name at the end";
	if (published(create, other))
		return WEXITSTATUS(create->status) || said.size ? "a create published, and tells a fault" : NULL;
	if (WEXITSTATUS(create->status) != 111)
		return "a create published nothing, and does not answer 111";
	if (!create->is_in_place && is_one_in_place)
		return "a create that replaces the database failed beside one in place";
	int first = create->is_in_place && create->locked, after = create->is_in_place && !create->locked ? 1 : 2;
	for (int which = first; which < after; which++)
		if (said.size == strlen(lines[which]) && !memcmp(said.text, lines[which], said.size))
			return NULL;
	return "a create tells another fault";
}

/* What is wrong once both have ended, or NULL. */
static const char *wrong_after(const struct create *creates)
{
	struct stat left;
	const char *wrong;
	int first = published(&creates[0], &creates[1]), second = published(&creates[1], &creates[0]);
	for (int which = 0; which < 2; which++)
		if ((wrong = wrong_with(&creates[which], &creates[1 - which])))
			return wrong;
	if (found() != (first > second ? 1 : second > first ? 2 : 0))
		return "the database is not that of the create that published last";
	return lstat(TEMPORARY, &left) == 0 ? "a temporary file is left" : NULL;
}

/* Makes one order. Answers how many of its turns came to their end, and what is wrong, or NULL. */
static int run(const int *turns, const char *how, int is_stale, const char **wrong)
{
	unlink(TEMPORARY);
	give(NAME, &databases[0]);
	if (is_stale)
		give(TEMPORARY, &stale);
	steps = 0;
	struct create creates[2] = {
		begun(how[0] == 'i', "one.txt", "one.errors"), begun(how[1] == 'i', "two.txt", "two.errors")
	};
	int over = 0, is_running = 1;
	*wrong = NULL;
	for (int turn = 0; turn < 3 && is_running; turn++) {
		is_running = make(&creates[turn % 2], turns[turn]);
		over += is_running;
		if (!is_one_in_place && found() < 0)
			*wrong = "the database is not whole at a switch";
	}
	for (int which = 1; which >= 0; which--)
		if (!creates[which].has_ended)
			make(&creates[which], ALL);
	if (!*wrong)
		*wrong = wrong_after(creates);
	return over;
}

int main(int count, char **words)
{
	const char *wrong;
	int orders = 0, failed = 0, over = 3, part, of, is_stale = count == 6;
	if (count < 5 || count > 6)
		return 2;
	program = words[1];
	part = atoi(words[2]);
	of = atoi(words[3]);
	if (!take("old.cdb", &databases[0]) || !take("one.cdb", &databases[1]) || !take("two.cdb", &databases[2]))
		return 2;
	is_one_in_place = strchr(words[4], 'i') != NULL;
	if (is_stale && !take(words[5], &stale))
		return 2;
	for (int first = part; over > 0; first += of) {
		over = 3;
		for (int second = 1; over > 1 && second < ALL; second++) {
			over = 3;
			for (int third = 1; over > 2 && third < ALL; third++) {
				const int turns[3] = { first, second, third };
				over = run(turns, words[4], is_stale, &wrong);
				orders++;
				if (wrong && failed++ < 5)
					printf("%d, %d and %d calls: %s\n", first, second, third, wrong);
			}
		}
	}
	printf("%d passed, %d failed\n", orders - failed, failed);
	return failed != 0;
}
