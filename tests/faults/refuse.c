/* Refuses memory, or calls of the system, to a program into which this library is loaded ahead of the
 * C library.
 *
 * Asks for memory are counted from 1, from the time when the library is loaded on; or calls on files,
 * where REFUSE_CALLS is set in the environment: all of them, or those that REFUSE_ONLY names, and of
 * these those on the name in REFUSE_NAME, if they are on a name. Refused are those from REFUSE_FIRST to
 * REFUSE_LAST, where these are set there. The count stands in the file that REFUSE_COUNT names, and
 * after it how many bytes were asked for. The file is mapped, so that both are there also after a crash.
 *
 * A call is refused with the error of the number in REFUSE_ERROR, else EIO. With REFUSE_ACT it is made,
 * and more is done:
 *
 *   kill   the program is killed once the call is made
 *   pipe   first a pipe replaces what has the name in REFUSE_NAME
 *   link   first a link to y replaces it
 *   take   first another file, which has a few bytes, replaces it
 *   grow   first a byte is added to the file that has the name in REFUSE_NAME
 *   hold   first a reader opens that file and locks it, for as long as the program runs
 *   none   it is not made, and answers 0
 *
 * Once a call was refused, more of those that REFUSE_ALSO names are, by EIO: from then on the ones from
 * REFUSE_ALSO_FIRST to REFUSE_ALSO_LAST. If REFUSE_ALSO_KILL is set, the program is killed before the first
 * of them. A close is counted only where REFUSE_ONLY or REFUSE_ALSO names it.
 *
 * REFUSE_SHORT is the most bytes that a read or a write takes. With REFUSE_ALIKE all files have one
 * inode, each on a device of its own. With REFUSE_REMOTE a file must be opened to write to be locked, as
 * over NFS.
 *
 * To the file that REFUSE_TRACE names, if it is set, a line is added for each call: which it was, the
 * file's number in its file system, what it answered, its flags or mode or how many bytes it was for,
 * and its name or the number of its file.
 *
 * To the file that REFUSE_CHANGES names, if it is set, what changed a file or a name is added: a line with what it was, the
 * file's number in its file system, a place in it or its mode, a number of bytes, and the name if it has one; and after the line
 * so many bytes, those that were written or the new name.
 */
#define _GNU_SOURCE
#include <errno.h>
#include <fcntl.h>
#include <signal.h>
#include <stdarg.h>
#include <stdio.h>
#include <stdlib.h>
#include <string.h>
#include <sys/file.h>
#include <sys/mman.h>
#include <sys/stat.h>
#include <sys/syscall.h>
#include <unistd.h>

/* The C library's own allocator, under the names that it keeps for libraries such as this. */
extern void *__libc_malloc(size_t size);
extern void *__libc_calloc(size_t items, size_t size);
extern void *__libc_realloc(void *old, size_t size);
extern void *__libc_memalign(size_t alignment, size_t size);

static unsigned long early[2], *asks = early;
static unsigned long first, last, most, also_first, also_last, also_asks;
static int are_calls, are_alike, are_remote, error = EIO, trace = -1, changes = -1, was_refused, also_kills;
static const char *only, *act, *named, *also;

/* A descriptor that the program does not get for a file of its own. */
#define FAR 100

/* A call of the system on a file, with what it is for. */
struct call {
	const char *what;
	/* Its name, or NULL: it is on the open file. */
	const char *name;
	int file;
	unsigned long detail;
};

static unsigned long number(const char *name)
{
	const char *text = getenv(name);
	return text ? strtoul(text, NULL, 10) : 0;
}

/* Opens the file that a variable names, if it is set, to add to it. */
static int opened(const char *variable)
{
	const char *path = getenv(variable);
	if (!path)
		return -1;
	int file = syscall(SYS_openat, AT_FDCWD, path, O_WRONLY | O_APPEND);
	int far = fcntl(file, F_DUPFD_CLOEXEC, FAR);
	syscall(SYS_close, file);
	return far;
}

__attribute__((constructor)) static void begin(void)
{
	const char *path = getenv("REFUSE_COUNT");
	int file = path ? syscall(SYS_openat, AT_FDCWD, path, O_RDWR) : -1;
	void *counted = MAP_FAILED;
	if (file >= 0) {
		counted = mmap(NULL, sizeof early, PROT_READ | PROT_WRITE, MAP_SHARED, file, 0);
		syscall(SYS_close, file);
	}
	if (counted == MAP_FAILED)
		_exit(99);
	first = number("REFUSE_FIRST");
	last = number("REFUSE_LAST");
	most = number("REFUSE_SHORT");
	are_calls = getenv("REFUSE_CALLS") != NULL;
	are_alike = getenv("REFUSE_ALIKE") != NULL;
	are_remote = getenv("REFUSE_REMOTE") != NULL;
	only = getenv("REFUSE_ONLY");
	act = getenv("REFUSE_ACT");
	named = getenv("REFUSE_NAME");
	also = getenv("REFUSE_ALSO");
	also_first = number("REFUSE_ALSO_FIRST");
	also_last = number("REFUSE_ALSO_LAST");
	also_kills = getenv("REFUSE_ALSO_KILL") != NULL;
	if (getenv("REFUSE_ERROR"))
		error = number("REFUSE_ERROR");
	asks = counted;
	trace = opened("REFUSE_TRACE");
	changes = opened("REFUSE_CHANGES");
}

/* The number of a call's file in its file system, or 0. */
static unsigned long inode(const struct call *call)
{
	struct stat found = { 0 };
	if (trace < 0 && changes < 0)
		return 0;
	if (call->name)
		syscall(SYS_newfstatat, AT_FDCWD, call->name, &found, AT_SYMLINK_NOFOLLOW);
	else
		syscall(SYS_newfstatat, call->file, "", &found, AT_EMPTY_PATH);
	return found.st_ino;
}

/* Adds a call to the trace. */
static void note(const struct call *call, unsigned long file, long answer)
{
	char line[256], open[16];
	snprintf(open, sizeof open, "%d", call->file);
	if (trace >= 0) {
		int size = snprintf(line, sizeof line, "%s %lu %ld %lu %s\n", call->what, file, answer,
			call->detail, call->name ? call->name : open);
		syscall(SYS_write, trace, line, size < (int)sizeof line ? size : (int)sizeof line - 1);
	}
}

/* Adds a change of a file or a name, if the call was made. */
static void note_change(const struct call *call, unsigned long file, long answer, unsigned long place, const void *bytes, size_t size)
{
	char line[256];
	if (changes < 0 || answer < 0)
		return;
	int length = snprintf(line, sizeof line, "%s %lu %lu %lu %s\n", call->what, file, place, size, call->name ? call->name : "");
	syscall(SYS_write, changes, line, length);
	syscall(SYS_write, changes, bytes, size);
}

static int is_among(void)
{
	++*asks;
	return *asks >= first && *asks <= last;
}

static int is_refused(size_t size)
{
	if (are_calls)
		return 0;
	asks[1] += size;
	if (!is_among())
		return 0;
	errno = ENOMEM;
	return 1;
}

/* Whether a word is in a list of words with commas between them. */
static int is_in(const char *list, const char *word)
{
	size_t size = strlen(word);
	for (const char *at = list; (at = strstr(at, word)); at += size)
		if ((at == list || at[-1] == ',') && (at[size] == 0 || at[size] == ','))
			return 1;
	return 0;
}

static int is_counted(const struct call *call)
{
	if (!are_calls || (only && !is_in(only, call->what)))
		return 0;
	return !named || !call->name || strcmp(named, call->name) == 0;
}

/* Whether a call is one of those that are refused once one was. */
static int is_refused_too(const struct call *call)
{
	if (!was_refused || !also || !is_in(also, call->what))
		return 0;
	++also_asks;
	return also_asks >= also_first && also_asks <= also_last;
}

/* Whether a list names a close, of which others are not counted. */
static int counts_closes(void)
{
	return (only && is_in(only, "close")) || (also && is_in(also, "close"));
}

static int acts(const char *how)
{
	return act && strcmp(act, how) == 0;
}

/* Puts a pipe, a link or a file of another program in place of what has the name. */
static void replace(void)
{
	syscall(SYS_unlinkat, AT_FDCWD, named, 0);
	if (acts("pipe")) {
		syscall(SYS_mknodat, AT_FDCWD, named, S_IFIFO | 0644, 0);
	} else if (acts("link")) {
		syscall(SYS_symlinkat, "y", AT_FDCWD, named);
	} else {
		int file = syscall(SYS_openat, AT_FDCWD, named, O_WRONLY | O_CREAT | O_EXCL, 0644);
		syscall(SYS_write, file, "another's", 9);
		syscall(SYS_close, file);
	}
}

/* Adds a byte to what has the name. */
static void grow(void)
{
	int file = syscall(SYS_openat, AT_FDCWD, named, O_WRONLY | O_APPEND);
	syscall(SYS_write, file, "*", 1);
	syscall(SYS_close, file);
}

/* Locks what has the name, as somebody who may read it. It is noted as a call. */
static void hold(void)
{
	struct call call = { "hold", named, -1, 0 };
	int file = syscall(SYS_openat, AT_FDCWD, named, O_RDONLY);
	unsigned long found = inode(&call);
	note(&call, found, syscall(SYS_flock, fcntl(file, F_DUPFD_CLOEXEC, FAR), LOCK_SH | LOCK_NB));
	syscall(SYS_close, file);
}

/* What a call of the system answers, unless it is refused. */
static long answer(const struct call *call, long number, long a, long b, long c, long d, long e)
{
	unsigned long file = inode(call);
	int is_chosen = is_counted(call) && is_among();
	int is_too = !is_chosen && is_refused_too(call);
	long answered = -1;
	if (is_too && also_kills)
		syscall(SYS_kill, getpid(), SIGKILL);
	was_refused |= is_chosen;
	if (is_too) {
		errno = EIO;
	} else if (is_chosen && !act) {
		errno = error;
	} else if (is_chosen && acts("none")) {
		answered = 0;
	} else {
		if (is_chosen && acts("grow"))
			grow();
		else if (is_chosen && acts("hold"))
			hold();
		else if (is_chosen && named && !acts("kill"))
			replace();
		answered = syscall(number, a, b, c, d, e);
	}
	int left = errno;
	note(call, file, answered);
	if (is_chosen && acts("kill"))
		syscall(SYS_kill, getpid(), SIGKILL);
	errno = left;
	return answered;
}

/* How many of so many bytes a call takes. */
static size_t taken(size_t size)
{
	return most && size > most ? most : size;
}

int open(const char *path, int flags, ...)
{
	va_list rest;
	va_start(rest, flags);
	int mode = flags & O_CREAT ? va_arg(rest, int) : 0;
	va_end(rest);
	struct call call = { "open", path, -1, flags };
	unsigned long before = inode(&call);
	int file = answer(&call, SYS_openat, AT_FDCWD, (long)path, flags, mode, 0);
	struct stat made = { 0 };
	if (changes >= 0 && file >= 0 && !before && syscall(SYS_fstat, file, &made) == 0)
		note_change(&call, made.st_ino, file, made.st_mode & 07777, "", 0);
	return file;
}

ssize_t read(int file, void *into, size_t size)
{
	struct call call = { "read", NULL, file, size };
	return answer(&call, SYS_read, file, (long)into, taken(size), 0, 0);
}

ssize_t write(int file, const void *bytes, size_t size)
{
	struct call call = { "write", NULL, file, size };
	return answer(&call, SYS_write, file, (long)bytes, taken(size), 0, 0);
}

ssize_t __write(int file, const void *bytes, size_t size)
{
	return write(file, bytes, size);
}

ssize_t pread(int file, void *into, size_t size, off_t place)
{
	struct call call = { "pread", NULL, file, size };
	return answer(&call, SYS_pread64, file, (long)into, taken(size), place, 0);
}

ssize_t pwrite(int file, const void *bytes, size_t size, off_t place)
{
	struct call call = { "pwrite", NULL, file, size };
	ssize_t written = answer(&call, SYS_pwrite64, file, (long)bytes, taken(size), place, 0);
	note_change(&call, inode(&call), written, place, bytes, written);
	return written;
}

int ftruncate(int file, off_t size)
{
	struct call call = { "cut", NULL, file, size };
	int answered = answer(&call, SYS_ftruncate, file, size, 0, 0, 0);
	note_change(&call, inode(&call), answered, size, "", 0);
	return answered;
}

int fsync(int file)
{
	struct call call = { "sync", NULL, file, 0 };
	int answered = answer(&call, SYS_fsync, file, 0, 0, 0, 0);
	note_change(&call, inode(&call), answered, 0, "", 0);
	return answered;
}

int fdatasync(int file)
{
	struct call call = { "datasync", NULL, file, 0 };
	return answer(&call, SYS_fdatasync, file, 0, 0, 0, 0);
}

int flock(int file, int how)
{
	struct call call = { "lock", NULL, file, how };
	if (are_remote && (fcntl(file, F_GETFL) & O_ACCMODE) == O_RDONLY) {
		errno = EBADF;
		return -1;
	}
	return answer(&call, SYS_flock, file, how, 0, 0, 0);
}

int fchmod(int file, mode_t mode)
{
	struct call call = { "allow", NULL, file, mode };
	int answered = answer(&call, SYS_fchmod, file, mode, 0, 0, 0);
	note_change(&call, inode(&call), answered, mode, "", 0);
	return answered;
}

int close(int file)
{
	struct call call = { "close", NULL, file, 0 };
	return counts_closes() ? answer(&call, SYS_close, file, 0, 0, 0, 0) : syscall(SYS_close, file);
}

int rename(const char *from, const char *to)
{
	struct call call = { "rename", from, -1, 0 };
	unsigned long file = inode(&call);
	int answered = answer(&call, SYS_renameat2, AT_FDCWD, (long)from, AT_FDCWD, (long)to, 0);
	note_change(&call, file, answered, 0, to, strlen(to));
	return answered;
}

int unlink(const char *path)
{
	struct call call = { "remove", path, -1, 0 };
	unsigned long file = inode(&call);
	int answered = answer(&call, SYS_unlinkat, AT_FDCWD, (long)path, 0, 0, 0);
	note_change(&call, file, answered, 0, "", 0);
	return answered;
}

int statx(int folder, const char *path, int flags, unsigned int mask, struct statx *into)
{
	struct call call = { "look", flags & AT_EMPTY_PATH ? NULL : path, folder, flags };
	int answered = answer(&call, SYS_statx, folder, (long)path, flags, mask, (long)into);
	if (answered == 0 && are_alike) {
		into->stx_dev_minor = into->stx_ino;
		into->stx_ino = 1;
	}
	return answered;
}

void *malloc(size_t size)
{
	return is_refused(size) ? NULL : __libc_malloc(size);
}

void *calloc(size_t items, size_t size)
{
	return is_refused(items * size) ? NULL : __libc_calloc(items, size);
}

void *realloc(void *old, size_t size)
{
	return is_refused(size) ? NULL : __libc_realloc(old, size);
}

void *memalign(size_t alignment, size_t size)
{
	return is_refused(size) ? NULL : __libc_memalign(alignment, size);
}

void *aligned_alloc(size_t alignment, size_t size)
{
	return is_refused(size) ? NULL : __libc_memalign(alignment, size);
}

int posix_memalign(void **into, size_t alignment, size_t size)
{
	void *given = is_refused(size) ? NULL : __libc_memalign(alignment, size);
	if (given == NULL)
		return ENOMEM;
	*into = given;
	return 0;
}
