/* The C functions that make a database, over the proved maker of crates/cdb_c.
 *
 * What each call does to the records is answered there, and the file is written there, as records come.
 * Here errno is set, small records are put together before they are handed on, and the descriptor is
 * handed over.
 */
#define _DEFAULT_SOURCE
#define _FILE_OFFSET_BITS 64
#include <assert.h>
#include <errno.h>
#include <fcntl.h>
#include <stddef.h>
#include <stdint.h>
#include <stdlib.h>
#include <string.h>
#include <sys/stat.h>
#include <unistd.h>
#include "cdb.h"

/* A handle of crates/cdb_c/src/maker. If all of it is zeros, it has no database. */
struct handle { _Bool is_full; void *at; };

/* The layout that programs are built with. */
#if UINTPTR_MAX > 0xffffffff
static_assert(sizeof(struct cdb_make) == 6168, "size of struct cdb_make");
static_assert(offsetof(struct cdb_make, cdb_fd) == 0, "cdb_fd");
static_assert(offsetof(struct cdb_make, cdb_dpos) == 4, "cdb_dpos");
static_assert(offsetof(struct cdb_make, cdb_rcnt) == 8, "cdb_rcnt");
static_assert(offsetof(struct cdb_make, cdb_buf) == 12, "cdb_buf");
static_assert(offsetof(struct cdb_make, cdb_bpos) == 4112, "cdb_bpos");
static_assert(offsetof(struct cdb_make, cdb_rec) == 4120, "cdb_rec");
static_assert(sizeof(struct handle) == 16, "size of a handle");
#endif

/* A file of the toolchain's, in a block of malloc that a call frees. The block begins with the number of its
 * descriptor, and is longer than any layout of a file. */
struct file { int *at; };
#define FILE_SIZE 64

/* What a maker keeps in cdb_rec. As long as records are added and no other call is made, those that fit
 * into cdb_buf are put together there, and are handed on when it is full. */
struct kept {
  struct handle handle;
  uint64_t end, count;  /* where the records end, and how many there are, with those in cdb_buf */
  uint32_t held;        /* how many bytes of records are in cdb_buf */
  int fd;               /* the descriptor of the start */
  dev_t dev; ino_t ino; /* and its file */
  _Bool is_adding;      /* whether no other call was made yet */
};
static_assert(sizeof(struct kept) <= sizeof(((struct cdb_make *)0)->cdb_rec), "it has room");

/* The functions of crates/cdb_c. A slice is an address and a size. */
int32_t cdb_c_file_number(struct file file);
int32_t cdb_c_make_start(struct handle *handle, struct file file);
int32_t cdb_c_make_put(struct handle *handle, uint32_t mode, const uint8_t *key, size_t klen,
                       const uint8_t *value, size_t vlen);
int32_t cdb_c_make_append(struct handle *handle, const uint8_t *bytes, size_t size);
uint64_t cdb_c_make_count(struct handle *handle);
uint64_t cdb_c_make_written(struct handle *handle);
int32_t cdb_c_make_exists(struct handle *handle, const uint8_t *key, size_t klen);
int32_t cdb_c_make_remove(struct handle *handle, const uint8_t *key, size_t klen);
int32_t cdb_c_make_finish(struct handle *handle);
void cdb_c_make_close(struct handle *handle);

/* The faults that they answer. The other one says that the handle has no maker to use. */
enum { LOOKUP = -2, TOO_BIG = -3, NO_MEMORY = -4, WRITING = -5 };

#define HEAD_SIZE 2048
/* How many bytes of records the maker collects before it writes them. */
#define WINDOW 65536
#define GREATEST_SIZE 0xffffffff
/* The lengths before a record, and the slots of one in its table. */
#define LENGTHS_SIZE 8
#define SLOTS_SIZE 16

static struct kept *kept_of(struct cdb_make *m) { return (struct kept *)(void *)m->cdb_rec; }

static struct handle *handle_of(struct cdb_make *m) { return &kept_of(m)->handle; }

/* The bytes of a key or a value: a slice has no null address. */
static const uint8_t *bytes_of(const void *b) { return b ? b : (const uint8_t *)""; }

/* Before a call that may fail by one of the system, which sets errno then: errno as it was. */
static int begin(void)
{
  int before = errno;
  errno = 0;
  return before;
}

/* The answer of a call. A success leaves errno as it was. */
static int answer(int32_t said, int error_before)
{
  if (said >= 0) return errno = error_before, said;
  if (said == LOOKUP || said == WRITING) return errno = errno ? errno : EIO, -1;
  return errno = said == TOO_BIG || said == NO_MEMORY ? ENOMEM : EPROTO, -1;
}

/* Hands a descriptor over, or 0. */
static int give(int fd, struct file *file)
{
  if (!(file->at = calloc(1, FILE_SIZE))) return 0;
  *file->at = fd;
  return 1;
}

/* Whether a file of the toolchain's is laid out as give() makes it: it tells the number that it was given. */
static int is_laid_out(int fd)
{
  struct file file;
  if (!give(fd, &file)) return 0;
  if (cdb_c_file_number(file) != fd) return errno = ENOSYS, 0;
  return 1;
}

/* Whether a file can be made by a descriptor: a regular one that is open for writing, at places. */
static int is_writable(int fd, struct stat *found)
{
  int flags = fcntl(fd, F_GETFL);
  if (flags < 0 || fstat(fd, found) < 0) return 0;
  if ((flags & O_ACCMODE) == O_RDONLY) return errno = EBADF, 0;
  if (!S_ISREG(found->st_mode)) return errno = ESPIPE, 0;
  /* Writes at places would go to the end of the file. */
  if (flags & O_APPEND) return errno = EINVAL, 0;
  return 1;
}

/* Empties a file. What it had is off the disk before a byte of the new head is on it: a part of that
 * over nothing would be an empty database's. */
static int empty(int fd)
{
  off_t size = lseek(fd, 0, SEEK_END);
  if (size < 0 || lseek(fd, 0, SEEK_SET) < 0) return -1;
  return size > 0 && (ftruncate(fd, 0) < 0 || fsync(fd) < 0) ? -1 : 0;
}

/* Empties the file, and leaves a head in it that each reader calls damaged. */
int cdb_make_start(struct cdb_make *m, int fd)
{
  int error_before = begin();
  struct file file;
  struct stat found;
  memset(m, 0, sizeof *m);
  m->cdb_fd = kept_of(m)->fd = fd;
  m->cdb_dpos = HEAD_SIZE;
  if (!is_writable(fd, &found) || !is_laid_out(fd) || !give(fd, &file)) return -1;
  kept_of(m)->dev = found.st_dev, kept_of(m)->ino = found.st_ino;
  if (empty(fd) < 0) return free(file.at), -1;
  int said = answer(cdb_c_make_start(handle_of(m), file), error_before);
  kept_of(m)->end = HEAD_SIZE;
  kept_of(m)->is_adding = said == 0;
  return said;
}

/* Looks at the file before it is written to: 0, or a fault if writes would not go to their places any more,
 * or if somebody cut what the maker wrote. */
static int32_t look(struct cdb_make *m)
{
  struct kept *k = kept_of(m);
  struct stat found;
  if (!is_writable(k->fd, &found)) return WRITING;
  /* Another file may have its number by now. */
  if (found.st_dev != k->dev || found.st_ino != k->ino) return errno = EBADF, WRITING;
  if ((uint64_t)found.st_size < cdb_c_make_written(&k->handle)) return errno = EPROTO, WRITING;
  return 0;
}

/* How many bytes the record has that is in cdb_buf at a place. */
static uint32_t size_at(const struct cdb_make *m, uint32_t place)
{
  const unsigned char *record = m->cdb_buf + place;
  return LENGTHS_SIZE + cdb_unpack(record) + cdb_unpack(record + 4);
}

/* Takes out of cdb_buf the records that the maker has taken of them. */
static void drop_taken(struct cdb_make *m)
{
  struct kept *k = kept_of(m);
  uint64_t left = k->count - cdb_c_make_count(&k->handle), many = 0;
  uint32_t place = 0;
  for (uint32_t at = 0; at < k->held; at += size_at(m, at)) many++;
  for (; many > left; many--) place += size_at(m, place);
  k->held -= place;
  memmove(m->cdb_buf, m->cdb_buf + place, k->held);
}

/* Hands the records in cdb_buf on: 0, or a fault, which leaves those there that the maker lacks. */
static int32_t hand_on(struct cdb_make *m)
{
  struct kept *k = kept_of(m);
  if (!k->held) return 0;
  /* What was cut before it writes would be a hole afterwards. */
  if (k->end - cdb_c_make_written(&k->handle) > WINDOW && look(m) < 0) return WRITING;
  int32_t said = cdb_c_make_append(&k->handle, m->cdb_buf, k->held);
  if (said < 0) drop_taken(m);
  else k->held = 0;
  return said;
}

/* Ends the adding, before another call: 0, or a fault. */
static int32_t end_adding(struct cdb_make *m)
{
  int32_t said = hand_on(m);
  if (said >= 0) kept_of(m)->is_adding = 0;
  return said;
}

/* Whether no file has room for the record of a put. An insert may find its key, and add none. */
static int is_too_big(unsigned klen, unsigned vlen, uint32_t mode)
{
  uint64_t size = klen + (mode == CDB_PUT_INSERT ? 0 : (uint64_t)vlen);
  return size > GREATEST_SIZE - HEAD_SIZE - LENGTHS_SIZE - SLOTS_SIZE;
}

/* Puts a record by the maker: its answer, or a fault. One that is too big is not read. */
static int32_t put_by(struct cdb_make *m, const void *key, unsigned klen, const void *val,
                      unsigned vlen, uint32_t mode)
{
  int32_t said = end_adding(m);
  if (said < 0) return said;
  if (is_too_big(klen, vlen, mode)) {
    /* An append of nothing says whether there is a maker to use. */
    said = cdb_c_make_append(handle_of(m), bytes_of(NULL), 0);
    return said < 0 ? said : TOO_BIG;
  }
  /* One that is written at once: what was cut before would be a hole afterwards. */
  if ((uint64_t)klen + vlen > sizeof m->cdb_buf && kept_of(m)->handle.is_full && look(m) < 0) return WRITING;
  return cdb_c_make_put(handle_of(m), mode, bytes_of(key), klen, bytes_of(val), vlen);
}

static int put(struct cdb_make *m, const void *key, unsigned klen, const void *val, unsigned vlen,
               uint32_t mode)
{
  int error_before = begin();
  int said = answer(put_by(m, key, klen, val, vlen, mode), error_before);
  if (said > 0 && mode == CDB_PUT_INSERT) errno = EEXIST;
  return said;
}

/* Puts a record together behind those in cdb_buf, where it has room. */
static void compose(struct cdb_make *m, const void *key, unsigned klen, const void *val,
                    unsigned vlen)
{
  struct kept *k = kept_of(m);
  unsigned char *to = m->cdb_buf + k->held;
  cdb_pack(klen, to);
  cdb_pack(vlen, to + 4);
  if (klen) memcpy(to + LENGTHS_SIZE, key, klen);
  if (vlen) memcpy(to + LENGTHS_SIZE + klen, val, vlen);
  k->held += LENGTHS_SIZE + klen + vlen;
  k->end += LENGTHS_SIZE + klen + vlen;
  k->count++;
}

int cdb_make_add(struct cdb_make *m, const void *key, unsigned klen, const void *val,
                 unsigned vlen)
{
  struct kept *k = kept_of(m);
  uint64_t size = LENGTHS_SIZE + (uint64_t)klen + vlen;
  if (k->is_adding && k->end + size + SLOTS_SIZE * (k->count + 1) > GREATEST_SIZE)
    return answer(TOO_BIG, 0);
  if (!k->is_adding || size > sizeof m->cdb_buf) return put(m, key, klen, val, vlen, CDB_PUT_ADD);
  if (size > sizeof m->cdb_buf - k->held) {
    int error_before = begin();
    if (answer(hand_on(m), error_before) < 0) return -1;
  }
  compose(m, key, klen, val, vlen);
  return 0;
}

int cdb_make_put(struct cdb_make *m, const void *key, unsigned klen, const void *val,
                 unsigned vlen, enum cdb_put_mode mode)
{
  if ((unsigned)mode > CDB_PUT_REPLACE0) return errno = EINVAL, -1;
  if (mode == CDB_PUT_ADD) return cdb_make_add(m, key, klen, val, vlen);
  return put(m, key, klen, val, vlen, mode);
}

int cdb_make_exists(struct cdb_make *m, const void *key, unsigned klen)
{
  int error_before = begin();
  int32_t said = end_adding(m);
  if (said >= 0) said = cdb_c_make_exists(handle_of(m), bytes_of(key), klen);
  return answer(said, error_before);
}

/* Another mode than these two only looks. */
int cdb_make_find(struct cdb_make *m, const void *key, unsigned klen, enum cdb_put_mode mode)
{
  if (mode != CDB_FIND_REMOVE && mode != CDB_FIND_FILL0) return cdb_make_exists(m, key, klen);
  int error_before = begin();
  int32_t said = end_adding(m);
  if (said >= 0) said = cdb_c_make_remove(handle_of(m), bytes_of(key), klen);
  return answer(said, error_before);
}

/* Frees a maker. The descriptor stays open. */
static void leave(struct cdb_make *m)
{
  cdb_c_make_close(handle_of(m));
  kept_of(m)->is_adding = 0;
  kept_of(m)->held = 0;
}

/* Gives a database up: what was written of it stays, and is damaged. */
void cdb_make_abort(struct cdb_make *m)
{
  int error_before = errno;
  leave(m);
  errno = error_before;
}

/* Finishes the file, if that is as the maker left it, and frees the maker whatever the answer. */
int cdb_make_finish(struct cdb_make *m)
{
  int error_before = begin();
  int32_t ready = handle_of(m)->is_full ? look(m) : 0;
  if (ready >= 0) ready = end_adding(m);
  int said = answer(ready < 0 ? ready : cdb_c_make_finish(handle_of(m)), error_before);
  int error = errno;
  leave(m);
  return errno = error, said;
}
