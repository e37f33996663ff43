/* Refuses memory, or calls of the system, to the library that a program is linked with.
 *
 * It counts the requests for memory, or the calls of the system if REFUSE_CALLS is in the
 * environment (those of one name if REFUSE_NAME has it), while the program is inside a call of the library.
 * It refuses those from REFUSE_FIRST to REFUSE_LAST; a call then fails with the number REFUSE_ERRNO. If REFUSE_SHORT is set, a read or a
 * write takes at most so many bytes. At its end the program writes to standard error how many it counted,
 * and how many blocks of memory it did not free. If REFUSE_NOTES names a file, each call that changes or
 * flushes a file and succeeds is noted there: `write PLACE SIZE` and the bytes, `cut SIZE 0` or `sync 0 0`.
 */
#define _GNU_SOURCE
#include <errno.h>
#include <fcntl.h>
#include <stdarg.h>
#include <stdio.h>
#include <stdlib.h>
#include <string.h>
#include <sys/mman.h>
#include <sys/stat.h>
#include <sys/syscall.h>
#include <unistd.h>

extern int is_inside;
extern void *__libc_malloc(size_t size);
extern void *__libc_realloc(void *old, size_t size);
extern void *__libc_calloc(size_t many, size_t size);
extern void __libc_free(void *block);

static long counted, blocks, first, last, most;
static int are_calls, error, notes = -1;
static const char *only;

static long number(const char *name)
{
  const char *text = getenv(name);
  return text ? atol(text) : 0;
}

__attribute__((constructor)) static void begin(void)
{
  are_calls = getenv("REFUSE_CALLS") != NULL;
  only = getenv("REFUSE_NAME");
  first = number("REFUSE_FIRST");
  last = number("REFUSE_LAST");
  most = number("REFUSE_SHORT");
  error = (int)number("REFUSE_ERRNO");
  const char *path = getenv("REFUSE_NOTES");
  if (path) notes = open(path, O_WRONLY | O_CREAT | O_TRUNC, 0666);
}

/* Notes a call, and answers what the system did. */
static long noted(long answer, const char *what, off_t place, const void *bytes)
{
  char line[64];
  if (!is_inside || notes < 0 || answer < 0) return answer;
  size_t size = bytes ? (size_t)answer : 0;
  int len = snprintf(line, sizeof line, "%s %lld %zu\n", what, (long long)place, size);
  if (write(notes, line, (size_t)len) != len) _exit(99);
  if (size && write(notes, bytes, size) != (ssize_t)size) _exit(99);
  return answer;
}

__attribute__((destructor)) static void end(void) { fprintf(stderr, "%ld %ld\n", counted, blocks); }

/* Whether a call of the system, or a request for memory, which has no name, is refused. */
static int is_refused(const char *name)
{
  if (!is_inside || (name != NULL) != are_calls) return 0;
  if (only && name && strcmp(only, name)) return 0;
  ++counted;
  if (counted < first || counted > last) return 0;
  errno = name ? error : ENOMEM;
  return 1;
}

void *malloc(size_t size)
{
  if (is_refused(NULL)) return NULL;
  blocks += is_inside;
  return __libc_malloc(size);
}

void *calloc(size_t many, size_t size)
{
  if (is_refused(NULL)) return NULL;
  blocks += is_inside;
  return __libc_calloc(many, size);
}

void *realloc(void *old, size_t size)
{
  if (is_refused(NULL)) return NULL;
  blocks += is_inside && old == NULL;
  return __libc_realloc(old, size);
}

void free(void *block)
{
  blocks -= is_inside && block != NULL;
  __libc_free(block);
}

ssize_t pwrite64(int fd, const void *bytes, size_t size, off_t place)
{
  if (is_refused("pwrite")) return -1;
  if (most && size > (size_t)most) size = (size_t)most;
  return noted(syscall(SYS_pwrite64, fd, bytes, size, place), "write", place, bytes);
}

ssize_t pread64(int fd, void *into, size_t size, off_t place)
{
  if (is_refused("pread")) return -1;
  if (most && size > (size_t)most) size = (size_t)most;
  return syscall(SYS_pread64, fd, into, size, place);
}

/* The same by a call that knows how large the buffer is. */
ssize_t __pread64_chk(int fd, void *into, size_t size, off_t place, size_t room)
{
  return size <= room ? pread64(fd, into, size, place) : (abort(), -1);
}

void *mmap64(void *where, size_t size, int may, int how, int fd, off_t place)
{
  return is_refused("mmap") ? MAP_FAILED : (void *)syscall(SYS_mmap, where, size, may, how, fd, place);
}

int ftruncate64(int fd, off_t size)
{
  return is_refused("ftruncate") ? -1 : (int)noted(syscall(SYS_ftruncate, fd, size), "cut", size, NULL);
}

int fsync(int fd)
{
  return is_refused("fsync") ? -1 : (int)noted(syscall(SYS_fsync, fd), "sync", 0, NULL);
}

off_t lseek64(int fd, off_t to, int from)
{
  return is_refused("lseek") ? -1 : syscall(SYS_lseek, fd, to, from);
}

int fstat64(int fd, struct stat64 *into)
{
  return is_refused("fstat") ? -1 : (int)syscall(SYS_fstat, fd, into);
}

int fcntl64(int fd, int what, ...)
{
  va_list rest;
  va_start(rest, what);
  long value = va_arg(rest, long);
  va_end(rest);
  return is_refused("fcntl") ? -1 : (int)syscall(SYS_fcntl, fd, what, value);
}

/* The same by the names that the toolchain's files are written by. */
ssize_t pwrite(int fd, const void *bytes, size_t size, off_t place) { return pwrite64(fd, bytes, size, place); }
ssize_t pread(int fd, void *into, size_t size, off_t place) { return pread64(fd, into, size, place); }
int ftruncate(int fd, off_t size) { return ftruncate64(fd, size); }
