/* Makes databases by scripts, and prints what each call answered.
 *
 *     makes LIST
 *
 * Each line of LIST names a script and a file. A line of a script is a call: `start`, `add KEY
 * VALUE`, `put MODE KEY VALUE`, `exists KEY`, `find MODE KEY`, `finish`, `abort`; `read KEY` finds the first
 * value of a key in the finished file, `seek KEY` finds it without a struct, `search KEY` begins a
 * search of it and goes on once, `walk` counts the records, and `closed` looks at a closed database.
 * `on KIND` starts on a descriptor of this kind (`pipe`, `socket`, `device`, `closed`, `reading`, `folder`,
 * `append`), and then tries to put and to finish. Keys and values are in hexadecimal digits; `.` is an empty one. For each call it prints the answer and errno, which is
 * 999 before; for a value that was found its hash instead; for a script at last `end`.
 */
#include <cdb.h>
#include <errno.h>
#include <fcntl.h>
#include <stdio.h>
#include <stdlib.h>
#include <string.h>
#include <sys/socket.h>
#include <unistd.h>

#define BEFORE 999

/* Whether a call of the library runs. refuse.c, if it is linked in, refuses only then. */
int is_inside;

struct bytes { unsigned char *at; unsigned len; };

static void want(int holds, const char *what)
{
  if (holds) return;
  fprintf(stderr, "makes: %s\n", what);
  exit(1);
}

static unsigned digit(char c) { return (unsigned)(c <= '9' ? c - '0' : c - 'a' + 10); }

/* Reads digits in place. */
static struct bytes bytes_of(char *digits)
{
  want(digits != NULL, "a word is missing");
  struct bytes b = { (unsigned char *)digits, 0 };
  for (char *c = digits; c[0] && c[0] != '.' && c[1]; c += 2)
    b.at[b.len++] = (unsigned char)(16 * digit(c[0]) + digit(c[1]));
  return b;
}

static struct bytes next_bytes(void) { return bytes_of(strtok(NULL, " ")); }

static void begin(void)
{
  errno = BEFORE;
  is_inside = 1;
}

static void say(int answer)
{
  int error = errno;
  is_inside = 0;
  printf("%d %d\n", answer, error);
}

/* Finds the first value of a key. Its length is the answer of 1. */
static void read_key(int fd, struct bytes key)
{
  struct cdb db;
  want(cdb_init(&db, fd) == 0, "a finished file can't be opened");
  int found = cdb_find(&db, key.at, key.len);
  printf("%d %u\n", found, found > 0 ? cdb_hash(cdb_getdata(&db), cdb_datalen(&db)) : 0);
  cdb_free(&db);
}

/* Finds the first value of a key by reads. */
static void seek_key(int fd, struct bytes key)
{
  static char value[4096];
  unsigned len = 0;
  begin();
  int found = cdb_seek(fd, key.at, key.len, &len), error = errno;
  is_inside = 0;
  if (found <= 0) {
    printf("%d %d\n", found, found ? error : 0);
    return;
  }
  want(len <= sizeof value && cdb_bread(fd, value, (int)len) == 0, "a value that was found is short");
  printf("%d %u\n", found, cdb_hash(value, len));
}

/* Begins a search, and goes on once. */
static void search_key(int fd, struct bytes key)
{
  struct cdb db;
  struct cdb_find search;
  want(cdb_init(&db, fd) == 0, "a file can't be opened");
  int begun = cdb_findinit(&search, &db, key.at, key.len);
  printf("%d %d\n", begun, cdb_findnext(&search));
  cdb_free(&db);
}

/* Says what a database answers after cdb_free: no byte of it, the first byte, and a look-up. */
static void use_closed(int fd)
{
  struct cdb db;
  struct cdb_find search;
  want(cdb_init(&db, fd) == 0, "a file can't be opened");
  cdb_free(&db);
  begin(), say(cdb_get(&db, 0, 0) ? 0 : -1);
  begin(), say(cdb_get(&db, 1, 0) ? 0 : -1);
  begin(), say(cdb_find(&db, "a", 1));
  begin(), say(cdb_findinit(&search, &db, "a", 1));
}

/* Counts the records. */
static void walk(int fd)
{
  struct cdb db;
  unsigned at, count = 0;
  want(cdb_init(&db, fd) == 0, "a finished file can't be opened");
  cdb_seqinit(&at, &db);
  int said;
  while ((said = cdb_seqnext(&at, &db)) > 0) count++;
  printf("%d %u\n", said, count);
  cdb_free(&db);
}

/* Calls on a descriptor in which no database can be made. */
static void call_on(int fd)
{
  struct cdb_make m;
  begin(), say(cdb_make_start(&m, fd));
  begin(), say(cdb_make_add(&m, "a", 1, "1", 1));
  begin(), say(cdb_make_finish(&m));
}

static void call_on_kind(const char *kind, const char *file)
{
  int ends[2] = { -1, -1 };
  if (!strcmp(kind, "pipe")) want(pipe(ends) == 0, "no pipe");
  if (!strcmp(kind, "socket")) want(socketpair(AF_UNIX, SOCK_STREAM, 0, ends) == 0, "no socket");
  if (!strcmp(kind, "device")) ends[1] = open("/dev/null", O_RDWR);
  if (!strcmp(kind, "folder")) ends[1] = open(".", O_RDONLY);
  if (!strcmp(kind, "reading")) ends[1] = open(file, O_RDONLY);
  if (!strcmp(kind, "append")) ends[1] = open(file, O_RDWR | O_APPEND);
  call_on(ends[1]);
  for (int n = 0; n < 2; n++)
    if (ends[n] >= 0) close(ends[n]);
}

/* Makes the call of a line. */
static void call(struct cdb_make *m, int fd, const char *file, char *line)
{
  const char *word = strtok(line, " ");
  int takes_mode = !strcmp(word, "put") || !strcmp(word, "find");
  enum cdb_put_mode mode = takes_mode ? (enum cdb_put_mode)atoi(strtok(NULL, " ")) : CDB_PUT_ADD;
  if (!strcmp(word, "start")) begin(), say(cdb_make_start(m, fd));
  else if (!strcmp(word, "finish")) begin(), say(cdb_make_finish(m));
  else if (!strcmp(word, "abort")) begin(), cdb_make_abort(m), say(0);
  else if (!strcmp(word, "walk")) walk(fd);
  else if (!strcmp(word, "closed")) use_closed(fd);
  else if (!strcmp(word, "on")) call_on_kind(strtok(NULL, " "), file);
  else {
    struct bytes key = next_bytes(), value = { NULL, 0 };
    if (!strcmp(word, "add") || !strcmp(word, "put")) value = next_bytes();
    begin();
    if (!strcmp(word, "add")) say(cdb_make_add(m, key.at, key.len, value.at, value.len));
    else if (!strcmp(word, "put")) say(cdb_make_put(m, key.at, key.len, value.at, value.len, mode));
    else if (!strcmp(word, "exists")) say(cdb_make_exists(m, key.at, key.len));
    else if (!strcmp(word, "find")) say(cdb_make_find(m, key.at, key.len, mode));
    else if (!strcmp(word, "seek")) seek_key(fd, key);
    else is_inside = 0, (strcmp(word, "search") ? read_key : search_key)(fd, key);
  }
}

/* Makes the calls of a script. The file keeps what it holds until a start empties it. */
static void run(const char *script, const char *file)
{
  static char line[300000];
  static struct cdb_make m;
  int fd = open(file, O_RDWR | O_CREAT, 0666);
  FILE *lines = fopen(script, "r");
  want(fd >= 0 && lines != NULL, "a file can't be opened");
  memset(&m, 0, sizeof m);
  m.cdb_fd = fd;
  while (fgets(line, sizeof line, lines)) {
    line[strcspn(line, "\n")] = 0;
    call(&m, fd, file, line);
  }
  want(cdb_fileno(&m) == fd && fcntl(fd, F_GETFD) >= 0, "the descriptor is another, or closed");
  printf("end\n");
  fclose(lines);
  close(fd);
}

int main(int many, char **words)
{
  char script[512], file[512];
  FILE *list = many == 2 ? fopen(words[1], "r") : NULL;
  want(list != NULL, "usage: makes LIST");
  while (fscanf(list, "%511s %511s", script, file) == 2) run(script, file);
  fclose(list);
  return 0;
}
