/* The C functions that look up a key in a file without mapping it.
 *
 * cdb_seek reads what a look-up needs: a pointer of the head, slots of its table, and the records
 * with the key's hash. It answers as cdb_find does. No proof covers it: the tests compare both.
 */
#define _DEFAULT_SOURCE
#define _FILE_OFFSET_BITS 64
#include <errno.h>
#include <limits.h>
#include <stdint.h>
#include <string.h>
#include <sys/stat.h>
#include <unistd.h>
#include "cdb.h"

#define HEAD_SIZE 2048
#define PAIR_SIZE 8
/* How many bytes of slots, and of a record, are read at once. */
#define SLOTS_SIZE 64
#define RECORD_SIZE 256
/* What a slot says that neither gives a value nor ends the search. */
#define GO_ON 2

/* Where a value is. */
struct value { uint64_t pos, len; };

/* A file, and how many bytes of it places reach. */
struct file { int fd; uint64_t size; };

/* A table, and the key that is looked up in it. */
struct search {
  struct file file;
  const unsigned char *key;
  unsigned klen, hash;
  uint64_t table, slots;
};

static int damaged(void) { return errno = EPROTO, -1; }

static unsigned min(uint64_t a, unsigned b) { return a < b ? (unsigned)a : b; }

/* Whether bytes lie inside a file. */
static int has_bytes(const struct file *f, uint64_t pos, uint64_t len)
{
  return pos <= f->size && len <= f->size - pos;
}

/* Reads bytes that lie inside a file. If they are gone, the file was cut. */
static int read_at(const struct file *f, unsigned char *into, size_t len, uint64_t pos)
{
  while (len > 0) {
    ssize_t some = pread(f->fd, into, len, (off_t)pos);
    if (some < 0 && errno == EINTR) continue;
    if (some < 0) return -1;
    if (!some) return damaged();
    into += some;
    len -= (size_t)some;
    pos += (uint64_t)some;
  }
  return 0;
}

/* Measures a file, of which places reach the first 4 GiB. One that has no head ends where its head is
 * read, and a pipe cannot seek. */
static int measure(struct file *f, int fd)
{
  struct stat file;
  if (fstat(fd, &file) < 0) return -1;
  if (file.st_size < HEAD_SIZE) return lseek(fd, 0, SEEK_CUR) < 0 ? -1 : (errno = EIO, -1);
  f->fd = fd;
  f->size = file.st_size < UINT_MAX ? (uint64_t)file.st_size : UINT_MAX;
  return 0;
}

/* Reads where the table of the key is. */
static int read_table(struct search *s)
{
  unsigned char pointer[PAIR_SIZE];
  if (read_at(&s->file, pointer, PAIR_SIZE, PAIR_SIZE * (s->hash % 256)) < 0) return -1;
  s->table = cdb_unpack(pointer);
  s->slots = cdb_unpack(pointer + 4);
  if (!s->slots) return 0;
  if (s->table < HEAD_SIZE || !has_bytes(&s->file, s->table, PAIR_SIZE * s->slots)) return damaged();
  return 0;
}

/* Whether the bytes of the file from a place on are the key's from one on: 1 or 0. */
static int has_key(const struct search *s, uint64_t pos, unsigned from)
{
  unsigned char piece[RECORD_SIZE];
  while (from < s->klen) {
    unsigned many = min(s->klen - from, sizeof piece);
    if (read_at(&s->file, piece, many, pos) < 0) return -1;
    if (memcmp(piece, s->key + from, many)) return 0;
    from += many;
    pos += many;
  }
  return 1;
}

/* Looks at the record at a place: its header and the first bytes of its key come by one read. */
static int look_at(const struct search *s, uint64_t pos, struct value *value)
{
  unsigned char piece[RECORD_SIZE];
  if (pos < HEAD_SIZE || !has_bytes(&s->file, pos, PAIR_SIZE)) return damaged();
  unsigned size = min(s->file.size - pos, sizeof piece);
  size = min(PAIR_SIZE + (uint64_t)s->klen, size);
  if (read_at(&s->file, piece, size, pos) < 0) return -1;
  uint64_t klen = cdb_unpack(piece), vlen = cdb_unpack(piece + 4);
  if (!has_bytes(&s->file, pos + PAIR_SIZE, klen + vlen)) return damaged();
  unsigned many = size - PAIR_SIZE;
  if (klen != s->klen || (many && memcmp(piece + PAIR_SIZE, s->key, many))) return 0;
  *value = (struct value){ pos + PAIR_SIZE + klen, vlen };
  return has_key(s, pos + size, many);
}

/* What a slot says: 1 for a value of the key, 0 for the end of the search, 2 to go on. */
static int look_by(const struct search *s, const unsigned char *slot, struct value *value)
{
  unsigned hash = cdb_unpack(slot), pos = cdb_unpack(slot + 4);
  if (!pos) return 0;
  if (hash != s->hash) return GO_ON;
  int said = look_at(s, pos, value);
  return said ? said : GO_ON;
}

/* Looks at some slots of the table, which lie one after the other. */
static int look_through(const struct search *s, uint64_t slot, unsigned many, struct value *value)
{
  unsigned char slots[SLOTS_SIZE];
  if (read_at(&s->file, slots, PAIR_SIZE * many, s->table + PAIR_SIZE * slot) < 0) return -1;
  for (unsigned n = 0; n < many; n++) {
    int said = look_by(s, slots + PAIR_SIZE * n, value);
    if (said != GO_ON) return said;
  }
  return GO_ON;
}

/* Finds the first value of the key: 1 or 0. The slots are looked at from the key's own on, and after
 * the last one comes the first. */
static int find(struct search *s, struct value *value)
{
  if (read_table(s) < 0) return -1;
  uint64_t slot = s->slots ? s->hash / 256 % s->slots : 0, left = s->slots;
  while (left > 0) {
    unsigned many = min(min(s->slots - slot, SLOTS_SIZE / PAIR_SIZE), min(left, UINT_MAX));
    int said = look_through(s, slot, many, value);
    if (said != GO_ON) return said;
    left -= many;
    slot = slot + many < s->slots ? slot + many : 0;
  }
  return 0;
}

/* Finds a value in a file, and moves the file's offset to it. */
int cdb_seek(int fd, const void *key, unsigned klen, unsigned *dlenp)
{
  struct search s = { .key = key, .klen = klen, .hash = cdb_hash(key, klen) };
  struct value value;
  if (measure(&s.file, fd) < 0) return -1;
  int said = find(&s, &value);
  if (said <= 0) return said;
  if (lseek(fd, (off_t)value.pos, SEEK_SET) < 0) return -1;
  *dlenp = (unsigned)value.len;
  return 1;
}

int cdb_bread(int fd, void *buf, int len)
{
  char *to = buf;
  while (len > 0) {
    ssize_t some = read(fd, to, (size_t)len);
    if (some < 0 && errno == EINTR) continue;
    if (some < 0) return -1;
    if (!some) return errno = EIO, -1;
    to += some;
    len -= (int)some;
  }
  return 0;
}
