/* Calls of the library at the edges of what its page says.
 *
 *     edges
 *
 * It makes its own files in the current folder. A row that does not hold is printed; the status is then
 * 1. Each group of rows runs in a process of its own, so that a crash or a hang is that group's alone.
 * The calls of the system that the library makes are counted here, and some are answered otherwise.
 */
#define _GNU_SOURCE
#include <cdb.h>
#include <errno.h>
#include <fcntl.h>
#include <limits.h>
#include <signal.h>
#include <stdint.h>
#include <stdio.h>
#include <stdlib.h>
#include <string.h>
#include <sys/mman.h>
#include <sys/resource.h>
#include <sys/stat.h>
#include <sys/syscall.h>
#include <sys/time.h>
#include <sys/wait.h>
#include <unistd.h>

#define HEAD 2048
#define PIECE 65536
/* How many seconds a group may take. */
#define PATIENCE 60

static int has_failed;

static void want(int holds, const char *what)
{
  if (holds) return;
  printf("%s\n", what);
  has_failed = 1;
}

/* Whether a call answered this, and set errno so. */
#define FAILS(call, answer, error) (errno = 0, (call) == (answer) && errno == (error))

/* What the system is made to do: take nothing of a write, forget what was written, have no bytes to read, not
 * move. */
static int takes_nothing, forgets, has_no_bytes, does_not_move;
static unsigned writes;
/* Of premises.c: whether files are laid out otherwise. */
extern int32_t other_layout;

ssize_t pwrite(int fd, const void *bytes, size_t size, off_t place)
{
  writes++;
  if (forgets) return (ssize_t)size;
  return takes_nothing ? 0 : syscall(SYS_pwrite64, fd, bytes, size, place);
}

ssize_t pwrite64(int fd, const void *bytes, size_t size, off_t place) { return pwrite(fd, bytes, size, place); }

ssize_t pread64(int fd, void *into, size_t size, off_t place)
{
  return has_no_bytes ? 0 : syscall(SYS_pread64, fd, into, size, place);
}

ssize_t pread(int fd, void *into, size_t size, off_t place) { return pread64(fd, into, size, place); }

/* The same by a call that knows how large the buffer is. */
ssize_t __pread64_chk(int fd, void *into, size_t size, off_t place, size_t room)
{
  return size <= room ? pread64(fd, into, size, place) : (abort(), -1);
}

off_t lseek64(int fd, off_t to, int from)
{
  return does_not_move ? (errno = EIO, -1) : syscall(SYS_lseek, fd, to, from);
}

static int file_named(const char *name)
{
  int fd = open(name, O_RDWR | O_CREAT | O_TRUNC, 0666);
  want(fd >= 0, "a file can't be made");
  return fd;
}

/* Makes a file of three records: two values of a, and an empty one of b. */
static int make(const char *name)
{
  struct cdb_make m;
  int fd = file_named(name);
  want(cdb_make_start(&m, fd) == 0 && cdb_make_add(&m, "a", 1, "1", 1) == 0 &&
       cdb_make_add(&m, "a", 1, "22", 2) == 0 && cdb_make_add(&m, "b", 1, "", 0) == 0 &&
       cdb_make_finish(&m) == 0, "a file is not made");
  return fd;
}

static void overwrite(int fd, unsigned place, unsigned number)
{
  unsigned char word[4];
  cdb_pack(number, word);
  want(syscall(SYS_pwrite64, fd, word, 4, (off_t)place) == 4, "a word is not written");
}

static void bytes_inside(void)
{
  struct cdb c;
  char buf[8];
  int fd = make("x");
  want(cdb_init(&c, fd) == 0, "cdb_init");
  unsigned size = c.cdb_fsize;
  want(FAILS(cdb_get(&c, 1, size), NULL, EPROTO), "cdb_get gives the byte after the file");
  want(FAILS(cdb_get(&c, size + 1, 0), NULL, EPROTO), "cdb_get gives more than the file");
  want(FAILS(cdb_get(&c, UINT_MAX, 2), NULL, EPROTO), "cdb_get takes an end that wraps");
  want(FAILS(cdb_get(&c, 2, UINT_MAX), NULL, EPROTO), "cdb_get takes a place that wraps");
  want(FAILS(cdb_read(&c, buf, 2, size - 1), -1, EPROTO), "cdb_read reads after the file");
  want(cdb_get(&c, 0, size) != NULL, "cdb_get gives no bytes at the end");
  want(cdb_get(&c, size, 0) == c.cdb_mem, "cdb_get does not give all bytes");
  cdb_free(&c);
}

static void what_was_found(void)
{
  struct cdb c;
  struct cdb_find search;
  unsigned pos;
  want(cdb_init(&c, make("x")) == 0 && cdb_findinit(&search, &c, "a", 1) == 1, "a search");
  while (cdb_findnext(&search) > 0) continue;
  want(cdb_datalen(&c) == 2 && !memcmp(cdb_getdata(&c), "22", 2),
       "the end of a search changes what was found");
  cdb_seqinit(&pos, &c);
  while (cdb_seqnext(&pos, &c) > 0) continue;
  want(cdb_keylen(&c) == 1 && *(const char *)cdb_getkey(&c) == 'b',
       "the end of a walk changes what was found");
  cdb_free(&c);
}

/* A slot of the second value leads outside the file. */
static void damage_amid_a_search(void)
{
  struct cdb c;
  struct cdb_find search;
  int fd = make("x");
  want(cdb_init(&c, fd) == 0 && cdb_findinit(&search, &c, "a", 1) == 1, "a search");
  unsigned slots = (unsigned)(search.cdb_htend - search.cdb_htab) / 8;
  unsigned at = (unsigned)(search.cdb_htp - search.cdb_htab) / 8;
  unsigned table = (unsigned)(search.cdb_htab - c.cdb_mem);
  overwrite(fd, table + 8 * ((at + 1) % slots) + 4, 0xfffffff0u);
  want(cdb_findinit(&search, &c, "a", 1) == 1 && cdb_findnext(&search) == 1,
       "the value before a damage is not found");
  for (int n = 0; n < 2; n++)
    want(FAILS(cdb_findnext(&search), -1, EPROTO), "a damaged search does not fail each time");
  cdb_free(&c);
}

/* Both look-ups of `a` in a damaged file, by the mapping and by reads. */
static void want_damaged(int fd, const char *mapped, const char *read)
{
  struct cdb c;
  unsigned len = 7;
  want(cdb_init(&c, fd) == 0, "cdb_init");
  want(FAILS(cdb_find(&c, "a", 1), -1, EPROTO), mapped);
  want(FAILS(cdb_seek(fd, "a", 1, &len), -1, EPROTO) && len == 7, read);
  cdb_free(&c);
}

static void numbers_that_wrap(void)
{
  int fd = make("x");
  overwrite(fd, HEAD, 1);
  overwrite(fd, HEAD + 4, UINT_MAX);
  want_damaged(fd, "cdb_find takes lengths that wrap", "cdb_seek takes lengths that wrap");
  /* The key's own slot is in the file, and the end of the table is not. */
  fd = make("x");
  want(ftruncate(fd, 1 << 20) == 0, "a file is not made longer");
  overwrite(fd, 8 * (cdb_hash("a", 1) % 256) + 4, (1u << 29) + 4);
  want_damaged(fd, "cdb_find takes slots that wrap", "cdb_seek takes slots that wrap");
}

static void seek_without_a_value(void)
{
  unsigned len = 7;
  int fd = make("x");
  lseek(fd, 11, SEEK_SET);
  want(cdb_seek(fd, "none", 4, &len) == 0 && len == 7 && lseek(fd, 0, SEEK_CUR) == 11,
       "cdb_seek of a key with no value changes the length or the offset");
  has_no_bytes = 1;
  want(FAILS(cdb_seek(fd, "a", 1, &len), -1, EPROTO) && len == 7,
       "cdb_seek in a file that is cut meanwhile");
  has_no_bytes = 0;
  does_not_move = 1;
  want(FAILS(cdb_seek(fd, "a", 1, &len), -1, EIO) && len == 7,
       "cdb_seek whose offset can't be moved changes the length");
  does_not_move = 0;
}

/* Files in which no look-up can begin. */
static void seek_without_a_head(void)
{
  int ends[2], fd = file_named("short");
  unsigned len = 7;
  want(ftruncate(fd, HEAD - 1) == 0 && lseek(fd, 3, SEEK_SET) == 3, "a short file");
  want(FAILS(cdb_seek(fd, "a", 1, &len), -1, EIO) && len == 7, "cdb_seek of a short file");
  want(lseek(fd, 0, SEEK_CUR) == 3, "cdb_seek of a short file moves its offset");
  want(pipe(ends) == 0 && FAILS(cdb_seek(ends[0], "a", 1, &len), -1, ESPIPE), "cdb_seek of a pipe");
  want(FAILS(cdb_seek(-1, "a", 1, &len), -1, EBADF), "cdb_seek of no descriptor");
}

/* How many mappings the process has, and of what kind that of an address is. */
static int mappings(const void *at, char *kind)
{
  char line[1024];
  int many = 0;
  FILE *maps = fopen("/proc/self/maps", "r");
  while (maps && fgets(line, sizeof line, maps)) {
    many++;
    if (at && strtoull(line, NULL, 16) == (uintptr_t)at) sscanf(line, "%*s %4s", kind);
  }
  if (maps) fclose(maps);
  return many;
}

static void mapping(void)
{
  struct cdb c;
  char kind[5] = "";
  int fd = make("x"), large = file_named("large");
  want(ftruncate(large, 1 << 20) == 0, "a file is not made longer");
  want(cdb_init(&c, fd) == 0, "cdb_init");
  mappings(c.cdb_mem, kind);
  want(!strcmp(kind, "r--s"), "a database is not mapped to read alone, and shared");
  cdb_free(&c);
  int before = mappings(NULL, NULL);
  for (int n = 0; n < 50; n++) {
    want(cdb_init(&c, n % 2 ? fd : large) == 0, "cdb_init");
    cdb_free(&c);
  }
  want(mappings(NULL, NULL) == before, "cdb_free leaves a mapping");
}

static void init_that_fails(void)
{
  struct cdb c, before;
  memset(&before, 0xa5, sizeof before);
  c = before;
  want(FAILS(cdb_init(&c, -1), -1, EBADF), "cdb_init of no descriptor");
  int fd = file_named("short");
  want(ftruncate(fd, HEAD - 1) == 0 && FAILS(cdb_init(&c, fd), -1, EPROTO), "cdb_init of a short file");
  want(!memcmp(&c, &before, sizeof c), "cdb_init that fails changes the struct");
}

static void file_above_4_gib(void)
{
  struct cdb c;
  unsigned len = 0;
  int fd = make("huge");
  want(ftruncate(fd, (1ll << 32) + 1000) == 0, "there is no file of 4 GiB");
  want(cdb_init(&c, fd) == 0 && c.cdb_fsize == UINT_MAX, "cdb_init above 4 GiB");
  want(cdb_find(&c, "a", 1) == 1 && cdb_datalen(&c) == 1, "cdb_find above 4 GiB");
  want(cdb_seek(fd, "a", 1, &len) == 1 && len == 1, "cdb_seek above 4 GiB");
  /* A value whose end no place reaches. */
  overwrite(fd, HEAD + 4, UINT_MAX - HEAD - 8);
  want(FAILS(cdb_find(&c, "a", 1), -1, EPROTO), "cdb_find of a value that no place reaches");
  want(FAILS(cdb_seek(fd, "a", 1, &len), -1, EPROTO), "cdb_seek of a value that no place reaches");
  cdb_free(&c);
  unlink("huge");
}

static void read_of_bytes(void)
{
  char buf[64];
  int fd = make("x");
  lseek(fd, -3, SEEK_END);
  want(FAILS(cdb_bread(fd, buf, 4), -1, EIO), "cdb_bread reads after the end");
  want(cdb_bread(fd, buf, 0) == 0, "cdb_bread of no bytes fails");
  lseek(fd, 0, SEEK_SET);
  want(cdb_bread(fd, buf, -1) == 0 && lseek(fd, 0, SEEK_CUR) == 0, "cdb_bread of less than nothing");
}

static void note_alarm(int number) { (void)number; }

/* Sends pieces into a pipe, a little later each. */
static int piped(int pieces, const char *piece)
{
  int ends[2];
  want(pipe(ends) == 0, "no pipe");
  if (fork() == 0) {
    for (int n = 0; n < pieces; n++) {
      usleep(100000);
      if (write(ends[1], piece, strlen(piece)) < 0) _exit(1);
    }
    _exit(0);
  }
  return ends[0];
}

static void read_in_pieces(void)
{
  char buf[6];
  struct sigaction to = { .sa_handler = note_alarm };
  struct itimerval often = { { 0, 20000 }, { 0, 20000 } }, never = { { 0, 0 }, { 0, 0 } };
  want(cdb_bread(piped(3, "ab"), buf, 6) == 0 && !memcmp(buf, "ababab", 6),
       "cdb_bread of pieces reads one alone");
  int fd = piped(1, "ab");
  sigaction(SIGALRM, &to, NULL);
  setitimer(ITIMER_REAL, &often, NULL);
  want(cdb_bread(fd, buf, 2) == 0, "cdb_bread that is interrupted ends");
  setitimer(ITIMER_REAL, &never, NULL);
}

/* premises.c sees that no export gets a null address. */
static void null_addresses(void)
{
  struct cdb_make m;
  struct cdb c;
  struct cdb_find search;
  int fd = file_named("null");
  want(cdb_make_start(&m, fd) == 0 && cdb_make_add(&m, NULL, 0, NULL, 0) == 0, "a null key is not added");
  want(cdb_make_put(&m, NULL, 0, NULL, 0, CDB_PUT_REPLACE) == 1, "a null key is not replaced");
  want(cdb_make_exists(&m, NULL, 0) == 1, "a null key is not there");
  want(cdb_make_find(&m, NULL, 0, CDB_FIND_REMOVE) == 1, "a null key is not removed");
  want(cdb_make_add(&m, NULL, 0, NULL, 0) == 0 && cdb_make_finish(&m) == 0, "no finish");
  want(cdb_init(&c, fd) == 0 && cdb_find(&c, NULL, 0) == 1, "a null key is not found");
  want(cdb_findinit(&search, &c, NULL, 0) == 1 && cdb_findnext(&search) == 1, "nor searched");
  want(cdb_hash(NULL, 0) == 5381, "a null key has no hash");
  cdb_free(&c);
}

static void starts(void)
{
  struct cdb_make m;
  int fd = make("x");
  lseek(fd, 5, SEEK_SET);
  want(cdb_make_start(&m, fd) == 0 && lseek(fd, 0, SEEK_CUR) == 0, "the offset is not moved to 0");
  want(cdb_make_add(&m, "a", 1, "1", 1) == 0 && m.cdb_dpos == HEAD && m.cdb_rcnt == 0,
       "the members that are not used change");
  want(cdb_make_finish(&m) == 0, "no finish");
  fd = open("x", O_RDWR | O_NONBLOCK);
  want(cdb_make_start(&m, fd) == 0 && cdb_make_finish(&m) == 0, "a descriptor that does not wait");
  memset(&m, 0xff, sizeof m);
  want(FAILS(cdb_make_start(&m, -1), -1, EBADF), "a start on no descriptor");
  want(FAILS(cdb_make_exists(&m, "a", 1), -1, EPROTO), "a look after a failed start");
  want(FAILS(cdb_make_finish(&m), -1, EPROTO), "a finish after a failed start");
}

/* The longest key or value beside a head, the lengths and two slots. */
#define LONGEST (UINT_MAX - HEAD - 8 - 16)

/* A key or a value with which no file has room is not read: here it may not be. */
static void record_that_is_too_big(void)
{
  struct cdb_make m;
  struct cdb c;
  int fd = make("x");
  void *value = mmap(NULL, UINT_MAX, PROT_NONE, MAP_PRIVATE | MAP_ANONYMOUS | MAP_NORESERVE, -1, 0);
  want(value != MAP_FAILED && cdb_make_start(&m, fd) == 0, "no value of 4 GiB");
  want(FAILS(cdb_make_add(&m, "a", 1, value, UINT_MAX), -1, ENOMEM), "a value that is too long");
  want(FAILS(cdb_make_add(&m, value, UINT_MAX, "1", 1), -1, ENOMEM), "a key that is too long");
  want(FAILS(cdb_make_add(&m, value, LONGEST, "1", 1), -1, ENOMEM), "a key too long for its value");
  want(cdb_make_add(&m, "a", 1, "1", 1) == 0, "the maker after it");
  want(FAILS(cdb_make_add(&m, value, LONGEST - 26, "1", 1), -1, ENOMEM), "a key too long beside a record");
  for (int mode = CDB_PUT_ADD; mode <= CDB_PUT_REPLACE0; mode++) {
    want(FAILS(cdb_make_put(&m, value, LONGEST + 1, "", 0, mode), -1, ENOMEM), "a put of a key that is too long");
    want(mode == CDB_PUT_INSERT || FAILS(cdb_make_put(&m, "a", 1, value, LONGEST, mode), -1, ENOMEM),
         "a put of a value that is too long");
  }
  want(FAILS(cdb_make_put(&m, "a", 1, value, UINT_MAX, CDB_PUT_INSERT), 1, EEXIST), "an insert that finds its key");
  want(FAILS(cdb_make_add(&m, value, UINT_MAX, "1", 1), -1, ENOMEM), "a key that is too long, once others were put");
  want(cdb_make_finish(&m) == 0, "the finish after it");
  want(FAILS(cdb_make_add(&m, value, UINT_MAX, "1", 1), -1, EPROTO), "a key that is too long, without a maker");
  want(cdb_init(&c, fd) == 0 && c.cdb_fsize == HEAD + 10 + 16 && cdb_find(&c, "a", 1) == 1, "the file is another");
  cdb_free(&c);
}

/* Puts records of keys from one on, so that some are written: by the mode, of so many bytes in all. */
static int put_from(struct cdb_make *m, unsigned first, enum cdb_put_mode mode, unsigned size)
{
  static char value[1000 - 8 - sizeof(unsigned)];
  int said = 0;
  for (unsigned n = first; n < first + size / 1000 && said == 0; n++)
    said = cdb_make_put(m, &n, sizeof n, value, sizeof value, mode);
  return said;
}

static int put_many(struct cdb_make *m, enum cdb_put_mode mode, unsigned size)
{
  return put_from(m, 0, mode, size);
}

/* Whether no look-up takes a file for a database. */
static int is_damaged(int fd)
{
  struct cdb c;
  unsigned key = 0;
  if (cdb_init(&c, fd) < 0) return errno == EPROTO;
  int found = cdb_find(&c, &key, sizeof key), error = errno;
  cdb_free(&c);
  return found == -1 && error == EPROTO;
}

/* A finish sees a file that somebody cut, and a maker that adds sees it before it writes. */
static void file_that_is_cut(void)
{
  static const enum cdb_put_mode MODES[] = { CDB_PUT_ADD, CDB_PUT_REPLACE, CDB_PUT_INSERT };
  struct cdb_make m;
  for (unsigned n = 0; n < 3; n++) {
    int fd = file_named("cut");
    want(cdb_make_start(&m, fd) == 0 && put_many(&m, MODES[n], 10 * PIECE) == 0, "puts");
    off_t size = lseek(fd, 0, SEEK_END);
    want(size > PIECE && ftruncate(fd, n ? size - 1 : HEAD + 5) == 0, "no cut");
    want(FAILS(cdb_make_finish(&m), -1, EPROTO), "a finish of a file that was cut");
    want(lseek(fd, 0, SEEK_END) == (n ? size - 1 : HEAD + 5) && is_damaged(fd), "a file that was cut is written");
    want(FAILS(cdb_make_finish(&m), -1, EPROTO), "a finish after it");
    close(fd);
  }
  int fd = file_named("cut");
  want(cdb_make_start(&m, fd) == 0 && cdb_make_add(&m, "a", 1, "1", 1) == 0 && ftruncate(fd, 0) == 0, "no cut");
  want(FAILS(cdb_make_finish(&m), -1, EPROTO) && lseek(fd, 0, SEEK_END) == 0, "a finish of a file without its head");
  want(cdb_make_start(&m, fd) == 0 && put_many(&m, CDB_PUT_ADD, 10 * PIECE) == 0 && ftruncate(fd, 3 * PIECE) == 0,
       "no cut");
  want(FAILS(put_many(&m, CDB_PUT_ADD, 10 * PIECE), -1, EPROTO), "adds to a file that was cut");
  want(FAILS(cdb_make_finish(&m), -1, EPROTO) && is_damaged(fd), "a finish after adds to a file that was cut");
  static char value[2 * PIECE];
  want(cdb_make_start(&m, fd) == 0 && cdb_make_add(&m, "a", 1, value, sizeof value) == 0 &&
       ftruncate(fd, PIECE) == 0, "no cut");
  want(FAILS(cdb_make_add(&m, "b", 1, value, sizeof value), -1, EPROTO), "a long add to a file that was cut");
  want(FAILS(cdb_make_finish(&m), -1, EPROTO) && is_damaged(fd), "a finish after a long add");
  /* What others write behind the records goes. */
  want(cdb_make_start(&m, fd) == 0 && put_many(&m, CDB_PUT_ADD, 2 * PIECE) == 0 && ftruncate(fd, 5 * PIECE) == 0,
       "no longer file");
  want(cdb_make_finish(&m) == 0 && !is_damaged(fd) && lseek(fd, 0, SEEK_END) == HEAD + 131 * 1016,
       "a finish of a file that was longer");
}

/* A finish sees a descriptor that appends by then, or that is closed. */
static void descriptor_that_appends(void)
{
  struct cdb_make m;
  int fd = file_named("appends");
  want(cdb_make_start(&m, fd) == 0 && put_many(&m, CDB_PUT_ADD, 1000) == 0 && fcntl(fd, F_SETFL, O_APPEND) == 0,
       "a descriptor that appends");
  want(FAILS(cdb_make_finish(&m), -1, EINVAL), "a finish by a descriptor that appends");
  want(lseek(fd, 0, SEEK_END) == HEAD && is_damaged(fd), "its file is written");
  want(FAILS(cdb_make_finish(&m), -1, EPROTO), "a finish after it");
  want(fcntl(fd, F_SETFL, 0) == 0 && cdb_make_start(&m, fd) == 0 && put_many(&m, CDB_PUT_ADD, 1000) == 0 &&
       fcntl(fd, F_SETFL, O_APPEND) == 0 && fcntl(fd, F_SETFL, 0) == 0, "a start");
  want(cdb_make_finish(&m) == 0 && !is_damaged(fd), "a descriptor that appended for a while");
  want(cdb_make_start(&m, fd) == 0 && put_many(&m, CDB_PUT_ADD, 1000) == 0 && fcntl(fd, F_SETFL, O_APPEND) == 0,
       "a start");
  want(FAILS(put_many(&m, CDB_PUT_ADD, 2 * PIECE), -1, EINVAL), "adds by a descriptor that appends");
  want(lseek(fd, 0, SEEK_END) == HEAD && fcntl(fd, F_SETFL, 0) == 0 && cdb_make_add(&m, "a", 1, "1", 1) == 0 &&
       cdb_make_finish(&m) == 0 && !is_damaged(fd), "the maker after it");
  want(cdb_make_start(&m, fd) == 0 && put_many(&m, CDB_PUT_ADD, 1000) == 0 && close(fd) == 0, "a start");
  want(FAILS(cdb_make_finish(&m), -1, EBADF), "a finish by a descriptor that is closed");
}

/* Puts a file of so many bytes under the number of a descriptor that was closed. */
static void take_number(int fd, size_t size)
{
  char *bytes = malloc(size);
  int other = open("another", O_RDWR | O_CREAT | O_TRUNC, 0666);
  want(bytes && other == fd, "another file has another number");
  memset(bytes, 'P', size);
  want(syscall(SYS_pwrite64, fd, bytes, size, (off_t)0) == (ssize_t)size, "no bytes of another file");
  free(bytes);
}

/* Whether a file is as take_number made it. */
static int is_as_taken(int fd, size_t size)
{
  char *bytes = malloc(size + 1);
  int holds = bytes && syscall(SYS_pread64, fd, bytes, size + 1, (off_t)0) == (ssize_t)size;
  for (size_t n = 0; holds && n < size; n++) holds = bytes[n] == 'P';
  free(bytes);
  return holds;
}

/* A descriptor is closed under a maker, and its number is another file's by then: short adds, long ones and a finish
 * leave that file as it is. In the other modes a maker looks at the finish alone, which does not cut it. */
static void descriptor_of_another_file(void)
{
  static const enum cdb_put_mode MODES[] = { CDB_PUT_ADD, CDB_PUT_REPLACE, CDB_PUT_INSERT };
  static const off_t SIZES[] = { 3000, 300000 };
  static char value[2 * PIECE];
  struct cdb_make m;
  struct cdb c;
  for (unsigned n = 0; n < 6; n++) {
    enum cdb_put_mode mode = MODES[n / 2];
    off_t size = SIZES[n % 2];
    int fd = file_named("closed");
    want(cdb_make_start(&m, fd) == 0 && put_many(&m, mode, PIECE / 2) == 0 && close(fd) == 0, "a start");
    take_number(fd, size);
    want(FAILS(cdb_make_put(&m, "a", 1, value, sizeof value, mode), -1, EBADF), "a long put to another file");
    want(is_as_taken(fd, size), "a long put writes to another file");
    want(FAILS(cdb_make_finish(&m), -1, EBADF) && is_as_taken(fd, size), "a finish in another file");
    want(FAILS(cdb_make_finish(&m), -1, EPROTO), "a finish after it");
    close(fd);
    fd = file_named("closed");
    want(cdb_make_start(&m, fd) == 0 && put_many(&m, mode, 2 * PIECE) == 0 && close(fd) == 0, "a start");
    take_number(fd, size);
    int said = put_from(&m, PIECE, mode, 2 * PIECE);
    want(mode != CDB_PUT_ADD || (said == -1 && is_as_taken(fd, size)), "adds to another file");
    want(FAILS(cdb_make_finish(&m), -1, EBADF) && lseek(fd, 0, SEEK_END) >= size, "a finish cuts another file");
    close(fd);
    fd = file_named("closed");
    want(cdb_make_start(&m, fd) == 0 && put_many(&m, mode, PIECE / 2) == 0 && close(fd) == 0, "a start");
    take_number(fd, size);
    cdb_make_abort(&m);
    want(is_as_taken(fd, size), "a maker that is given up writes to another file");
    close(fd);
  }
  /* The same file by another descriptor is still the maker's. */
  int fd = file_named("closed");
  want(cdb_make_start(&m, fd) == 0 && put_many(&m, CDB_PUT_ADD, 2 * PIECE) == 0 && close(fd) == 0 &&
       open("closed", O_RDWR) == fd && cdb_make_finish(&m) == 0, "the same file counts as another");
  want(!is_damaged(fd) && cdb_init(&c, fd) == 0 && c.cdb_fsize == HEAD + 131 * 1016, "no database in the same file");
  cdb_free(&c);
}

/* Two records that come to so many bytes, and what is found of them. */
static void two_records_of(unsigned first, unsigned both)
{
  static char value[3 * 4096];
  struct cdb_make m;
  struct cdb c;
  int fd = file_named("two");
  unsigned second = both - first;
  want(cdb_make_start(&m, fd) == 0 && cdb_make_add(&m, "a", 1, value, first - 9) == 0 &&
       cdb_make_add(&m, "b", 1, value, second - 9) == 0 && cdb_make_finish(&m) == 0, "no two records");
  want(cdb_init(&c, fd) == 0 && cdb_find(&c, "a", 1) == 1 && cdb_datalen(&c) == first - 9,
       "the first of two records is another");
  want(cdb_find(&c, "b", 1) == 1 && cdb_datalen(&c) == second - 9, "the second of two records is another");
  cdb_free(&c);
}

static void records_that_fill_the_buffer(void)
{
  const unsigned room = sizeof(((struct cdb_make *)0)->cdb_buf);
  for (unsigned both = room - 1; both <= room + 1; both++) {
    two_records_of(4000, both);
    two_records_of(9, 9 + both);
    two_records_of(both, both + 9);
  }
}

static void pieces_of_a_file(void)
{
  static char value[4 * PIECE];
  struct cdb_make m;
  int fd = file_named("pieces");
  writes = 0;
  want(cdb_make_start(&m, fd) == 0 && writes == 1, "a start writes more than a head");
  want(cdb_make_add(&m, "a", 1, value, sizeof value) == 0, "an add");
  /* The lengths, the key and the value. */
  want(writes == 1 + 3, "a long record is written by other pieces");
  for (unsigned n = 0; n < 1000; n++) want(cdb_make_add(&m, "b", 1, value, 100) == 0, "an add");
  want(writes == 4 + 1, "short records are not collected");
  want(cdb_make_finish(&m) == 0, "no finish");
  /* What was collected with the tables, and the head. */
  want(writes == 5 + 2, "a file is finished by other pieces");
  want(cdb_make_start(&m, fd) == 0, "a start");
  takes_nothing = 1;
  want(FAILS(cdb_make_finish(&m), -1, EIO), "a write that takes nothing is taken for done");
  takes_nothing = 0;
}

/* A file that may not grow as an add wants: the add says so, and the others are made. */
static void limit_of_a_file(void)
{
  static char value[PIECE];
  struct rlimit limit = { 4096, RLIM_INFINITY };
  struct cdb_make m;
  struct cdb c;
  int fd = make("x");
  want(signal(SIGXFSZ, SIG_IGN) != SIG_ERR && setrlimit(RLIMIT_FSIZE, &limit) == 0, "no limit");
  want(cdb_make_start(&m, fd) == 0 && cdb_make_add(&m, "b", 1, "2", 1) == 0, "an add");
  want(FAILS(cdb_make_add(&m, "a", 1, value, sizeof value), -1, EFBIG), "a record above the limit is added");
  want(cdb_make_add(&m, "c", 1, "3", 1) == 0 && cdb_make_finish(&m) == 0, "the maker after it");
  want(FAILS(cdb_make_finish(&m), -1, EPROTO), "a maker finishes twice");
  want(cdb_init(&c, fd) == 0 && cdb_find(&c, "a", 1) == 0 && cdb_find(&c, "b", 1) == 1 &&
       cdb_find(&c, "c", 1) == 1, "the file of the others is another");
  cdb_free(&c);
}

/* Small records up to 4 GiB, of which no byte is kept. Each has 4000 bytes, and 16 of slots. */
static void file_of_4_gib(void)
{
  static char value[4000 - 9];
  const unsigned most = (UINT_MAX - HEAD) / 4016;
  /* The value of one more that fills them. */
  const unsigned last = (UINT_MAX - HEAD) % 4016 - 16 - 9;
  struct cdb_make m;
  int fd = file_named("full");
  want(cdb_make_start(&m, fd) == 0 && ftruncate(fd, UINT_MAX) == 0, "a start");
  forgets = 1;
  for (unsigned n = 0; n < most; n++)
    if (cdb_make_add(&m, "a", 1, value, sizeof value) < 0) want(0, "a file below 4 GiB is too big"), n = most;
  want(FAILS(cdb_make_add(&m, "a", 1, value, sizeof value), -1, ENOMEM), "a file of 4 GiB is not too big");
  want(FAILS(cdb_make_add(&m, "a", 1, value, last + 1), -1, ENOMEM), "a file of 4 GiB is not a byte too big");
  want(cdb_make_add(&m, "a", 1, value, last) == 0, "a file a byte below 4 GiB is too big");
  cdb_make_abort(&m);
  forgets = 0;
}

/* A record that fills a file to 4 GiB, of which no byte is kept, and one that is a byte longer. */
static void record_of_4_gib(void)
{
  struct cdb_make m;
  int fd = file_named("full");
  void *value = mmap(NULL, UINT_MAX, PROT_READ, MAP_PRIVATE | MAP_ANONYMOUS | MAP_NORESERVE, -1, 0);
  want(value != MAP_FAILED && cdb_make_start(&m, fd) == 0 && ftruncate(fd, UINT_MAX) == 0, "a start");
  forgets = 1;
  want(FAILS(cdb_make_put(&m, "a", 1, value, LONGEST, CDB_PUT_REPLACE), -1, ENOMEM), "a record a byte too long is put");
  want(cdb_make_put(&m, "a", 1, value, LONGEST - 1, CDB_PUT_REPLACE) == 0, "a record that fills a file is too big");
  cdb_make_abort(&m);
  forgets = 0;
}

/* A library whose files are laid out otherwise touches nothing. */
static void other_files(void)
{
  struct cdb_make m;
  struct cdb c;
  int fd = make("x");
  other_layout = 1;
  want(FAILS(cdb_make_start(&m, fd), -1, ENOSYS), "a start with files of another layout");
  other_layout = 0;
  want(FAILS(cdb_make_add(&m, "a", 1, "1", 1), -1, EPROTO), "an add after it");
  want(cdb_init(&c, fd) == 0 && cdb_find(&c, "b", 1) == 1, "the file is touched");
  cdb_free(&c);
}

/* A descriptor that may not read serves adds. A put that looks says that it may not. */
static void write_only(void)
{
  struct cdb_make m;
  struct cdb c;
  int reading = make("x"), fd = open("x", O_WRONLY);
  want(cdb_make_start(&m, fd) == 0 && cdb_make_add(&m, "a", 1, "1", 1) == 0 && cdb_make_finish(&m) == 0,
       "adds by a descriptor that may not read");
  want(cdb_init(&c, reading) == 0 && cdb_find(&c, "a", 1) == 1, "their file is another");
  cdb_free(&c);
  want(cdb_make_start(&m, fd) == 0 && cdb_make_add(&m, "a", 1, "1", 1) == 0, "an add");
  static char value[2 * PIECE];
  want(cdb_make_add(&m, "b", 1, value, sizeof value) == 0, "a long add");
  want(FAILS(cdb_make_exists(&m, "a", 1), -1, EBADF), "a look by a descriptor that may not read");
  want(cdb_make_finish(&m) == 0 && fcntl(fd, F_GETFD) >= 0, "the finish after it");
}

/* A change of the descriptor amid a make is not followed. */
static void other_descriptor(void)
{
  struct cdb_make m;
  struct cdb c;
  int fd = file_named("first"), other = file_named("second");
  want(cdb_make_start(&m, fd) == 0, "a start");
  m.cdb_fd = other;
  want(cdb_make_add(&m, "a", 1, "1", 1) == 0 && cdb_make_finish(&m) == 0, "no finish");
  want(cdb_init(&c, fd) == 0 && cdb_find(&c, "a", 1) == 1 && lseek(other, 0, SEEK_END) == 0,
       "the file of another descriptor is written");
  cdb_free(&c);
}

/* A child has a copy of a maker. If it ends without another call, its parent goes on. */
static void fork_amid_a_make(void)
{
  struct cdb_make m;
  struct cdb c;
  int status, fd = file_named("parent");
  want(cdb_make_start(&m, fd) == 0 && cdb_make_add(&m, "a", 1, "1", 1) == 0, "an add");
  pid_t child = fork();
  if (child == 0) _exit(0);
  want(waitpid(child, &status, 0) == child && status == 0, "the child fails");
  want(cdb_make_add(&m, "c", 1, "333", 3) == 0 && cdb_make_finish(&m) == 0, "the parent does not finish");
  want(cdb_init(&c, fd) == 0 && cdb_find(&c, "a", 1) == 1 && cdb_find(&c, "c", 1) == 1,
       "the file of the parent is another");
  cdb_free(&c);
}

/* Each way out of a maker leaves its descriptor open, and no other. */
static void descriptors_stay(void)
{
  struct rlimit limit = { 64, 64 };
  struct cdb_make m;
  int fd = file_named("stays");
  want(setrlimit(RLIMIT_NOFILE, &limit) == 0, "no limit");
  for (unsigned n = 0; n < 10000; n++) {
    want(cdb_make_start(&m, fd) == 0 && cdb_make_add(&m, "a", 1, "1", 1) == 0, "a start of many");
    if (n % 3 == 0) want(cdb_make_put(&m, "a", 1, "2", 1, CDB_PUT_REPLACE) == 1, "a put of many");
    if (n % 3 == 1) cdb_make_abort(&m);
    else want(cdb_make_finish(&m) == 0, "a finish of many");
    if (fcntl(fd, F_GETFD) < 0) want(0, "a descriptor is closed"), n = 10000;
  }
}

#define MANY 200

static void many_makers(void)
{
  static struct cdb_make makers[MANY];
  char name[16];
  for (unsigned n = 0; n < MANY; n++) {
    sprintf(name, "many%u", n);
    want(cdb_make_start(&makers[n], file_named(name)) == 0, "a start of many");
  }
  for (unsigned n = 0; n < 8 * MANY; n++) {
    unsigned key = n / MANY;
    struct cdb_make *m = &makers[n % MANY];
    want((n % 2 ? cdb_make_add(m, &key, sizeof key, &n, sizeof n)
                : cdb_make_put(m, &key, sizeof key, &n, sizeof n, CDB_PUT_REPLACE)) == 0, "a put of many");
  }
  for (unsigned n = 0; n < MANY; n++) {
    struct cdb c;
    unsigned key = 7, value = 0;
    want(cdb_make_finish(&makers[n]) == 0 && cdb_init(&c, cdb_fileno(&makers[n])) == 0 &&
         cdb_find(&c, &key, sizeof key) == 1 && cdb_readdata(&c, &value) == 0 && value == 7 * MANY + n,
         "a file of many is another");
    cdb_free(&c);
    close(cdb_fileno(&makers[n]));
  }
}

static const struct { void (*rows)(void); const char *name; } GROUPS[] = {
  { bytes_inside, "bytes inside the file" },
  { what_was_found, "what was found" },
  { damage_amid_a_search, "a damage amid a search" },
  { numbers_that_wrap, "numbers that wrap" },
  { seek_without_a_value, "a seek without a value" },
  { seek_without_a_head, "a seek without a head" },
  { mapping, "the mapping" },
  { init_that_fails, "an init that fails" },
  { file_above_4_gib, "a file above 4 GiB" },
  { read_of_bytes, "cdb_bread" },
  { read_in_pieces, "cdb_bread in pieces" },
  { null_addresses, "null addresses" },
  { starts, "starts" },
  { record_that_is_too_big, "a record that is too big" },
  { file_that_is_cut, "a file that is cut" },
  { descriptor_that_appends, "a descriptor that appends" },
  { descriptor_of_another_file, "a descriptor of another file" },
  { records_that_fill_the_buffer, "records that fill the buffer" },
  { pieces_of_a_file, "pieces of a file" },
  { limit_of_a_file, "the limit of a file" },
  { file_of_4_gib, "a file of 4 GiB" },
  { record_of_4_gib, "a record of 4 GiB" },
  { other_files, "files of another layout" },
  { write_only, "a descriptor that may not read" },
  { other_descriptor, "another descriptor" },
  { fork_amid_a_make, "a fork amid a make" },
  { descriptors_stay, "descriptors that stay open" },
  { many_makers, "many makers at once" },
};

int main(void)
{
  int failed = 0;
  for (size_t n = 0; n < sizeof GROUPS / sizeof *GROUPS; n++) {
    int status;
    pid_t child = fork();
    if (child == 0) {
      alarm(PATIENCE);
      GROUPS[n].rows();
      fflush(stdout);
      _exit(has_failed);
    }
    waitpid(child, &status, 0);
    if (!WIFEXITED(status)) printf("%s: a crash, or it hangs\n", GROUPS[n].name), fflush(stdout);
    failed |= status != 0;
  }
  return failed;
}
