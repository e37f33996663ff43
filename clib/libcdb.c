/* The C functions of libcdb over the proved look-ups of crates/cdb_c.
 *
 * What a key's values are and which records a file has is answered there. Here a file is mapped,
 * the caller's structs are read and written, and errno is set.
 */
#define _DEFAULT_SOURCE
#define _FILE_OFFSET_BITS 64
#include <assert.h>
#include <errno.h>
#include <limits.h>
#include <stddef.h>
#include <stdint.h>
#include <string.h>
#include <sys/mman.h>
#include <sys/stat.h>
#include <unistd.h>
#include "cdb.h"

/* The layout that programs are built with. */
static_assert(UINT_MAX == 0xffffffff, "a place has 32 bits");
#if UINTPTR_MAX > 0xffffffff
static_assert(sizeof(struct cdb) == 40, "size of struct cdb");
static_assert(offsetof(struct cdb, cdb_fd) == 0, "cdb_fd");
static_assert(offsetof(struct cdb, cdb_fsize) == 4, "cdb_fsize");
static_assert(offsetof(struct cdb, cdb_dend) == 8, "cdb_dend");
static_assert(offsetof(struct cdb, cdb_mem) == 16, "cdb_mem");
static_assert(offsetof(struct cdb, cdb_vpos) == 24, "cdb_vpos");
static_assert(offsetof(struct cdb, cdb_vlen) == 28, "cdb_vlen");
static_assert(offsetof(struct cdb, cdb_kpos) == 32, "cdb_kpos");
static_assert(offsetof(struct cdb, cdb_klen) == 36, "cdb_klen");
static_assert(sizeof(struct cdb_find) == 64, "size of struct cdb_find");
static_assert(offsetof(struct cdb_find, cdb_cdbp) == 0, "cdb_cdbp");
static_assert(offsetof(struct cdb_find, cdb_hval) == 8, "cdb_hval");
static_assert(offsetof(struct cdb_find, cdb_htp) == 16, "cdb_htp");
static_assert(offsetof(struct cdb_find, cdb_htab) == 24, "cdb_htab");
static_assert(offsetof(struct cdb_find, cdb_htend) == 32, "cdb_htend");
static_assert(offsetof(struct cdb_find, cdb_httodo) == 40, "cdb_httodo");
static_assert(offsetof(struct cdb_find, cdb_key) == 48, "cdb_key");
static_assert(offsetof(struct cdb_find, cdb_klen) == 56, "cdb_klen");
#endif

/* The structs and functions of crates/cdb_c. A slice is an address and a size. */
struct found { uint32_t place, len; };
struct state { uint64_t hash, table, slots, slot, left; };
struct placed { uint32_t place, key_place, key_len, value_place, value_len; };

int32_t cdb_c_find(const uint8_t *file, size_t size, const uint8_t *key, size_t klen,
                   struct found *found);
int32_t cdb_c_begin(const uint8_t *file, size_t size, const uint8_t *key, size_t klen,
                    struct state *state);
int32_t cdb_c_next(const uint8_t *file, size_t size, const uint8_t *key, size_t klen,
                   struct state *state, struct found *found);
uint64_t cdb_c_record_end(const uint8_t *file, size_t size);
int32_t cdb_c_next_record(const uint8_t *file, size_t size, uint64_t end, uint32_t *place,
                          struct placed *found);

#define HEAD_SIZE 2048

/* A damage is -1 and EPROTO. */
static int damaged(void) { return errno = EPROTO, -1; }

/* The bytes of a key: a slice has no null address. */
static const uint8_t *bytes_of(const void *key) { return key ? key : (const uint8_t *)""; }

/* Whether a database is open, so that its head is mapped. After cdb_free it has no bytes. */
static int is_open(const struct cdb *c) { return c->cdb_fsize >= HEAD_SIZE; }

/* Maps a file, of which places reach the first 4 GiB. */
static int map_file(struct cdb *c, int fd)
{
  struct stat file;
  if (fstat(fd, &file) < 0) return -1;
  if (file.st_size < HEAD_SIZE) return damaged();
  unsigned size = file.st_size < UINT_MAX ? (unsigned)file.st_size : UINT_MAX;
  void *mem = mmap(NULL, size, PROT_READ, MAP_SHARED, fd, 0);
  if (mem == MAP_FAILED) return -1;
  *c = (struct cdb){ .cdb_fd = fd, .cdb_fsize = size, .cdb_mem = mem };
  return 0;
}

/* Opens a database. A record end is a word of the file, so it fits. */
int cdb_init(struct cdb *c, int fd)
{
  if (map_file(c, fd) < 0) return -1;
  c->cdb_dend = (unsigned)cdb_c_record_end(c->cdb_mem, c->cdb_fsize);
  return 0;
}

void cdb_free(struct cdb *c)
{
  if (c->cdb_mem) munmap((void *)(uintptr_t)c->cdb_mem, c->cdb_fsize);
  c->cdb_mem = NULL;
  c->cdb_fsize = 0;
}

const void *cdb_get(const struct cdb *c, unsigned len, unsigned pos)
{
  if (!is_open(c) || pos > c->cdb_fsize || len > c->cdb_fsize - pos) return damaged(), NULL;
  return c->cdb_mem + pos;
}

int cdb_read(const struct cdb *c, void *buf, unsigned len, unsigned pos)
{
  const void *data = cdb_get(c, len, pos);
  if (!data) return -1;
  if (len) memcpy(buf, data, len);
  return 0;
}

/* Notes a value. Its key is before it. */
static int note(struct cdb *c, const struct found *value, unsigned klen)
{
  c->cdb_vpos = value->place;
  c->cdb_vlen = value->len;
  c->cdb_kpos = value->place - klen;
  c->cdb_klen = klen;
  return 1;
}

int cdb_find(struct cdb *c, const void *key, unsigned klen)
{
  struct found value;
  if (!is_open(c)) return damaged();
  int32_t said = cdb_c_find(c->cdb_mem, c->cdb_fsize, bytes_of(key), klen, &value);
  return said > 0 ? note(c, &value, klen) : said ? damaged() : 0;
}

/* Keeps a state that has slots left, so its table and its slot are inside the file. */
static void keep(struct cdb_find *s, const struct state *state)
{
  s->cdb_hval = (unsigned)state->hash;
  s->cdb_htab = s->cdb_cdbp->cdb_mem + state->table;
  s->cdb_htend = s->cdb_htab + 8 * state->slots;
  s->cdb_htp = s->cdb_htab + 8 * state->slot;
  s->cdb_httodo = (unsigned)(8 * state->left);
}

int cdb_findinit(struct cdb_find *s, struct cdb *c, const void *key, unsigned klen)
{
  struct state state;
  /* A search that did not begin has no database. */
  *s = (struct cdb_find){ .cdb_key = key, .cdb_klen = klen };
  if (!is_open(c)) return damaged();
  int32_t said = cdb_c_begin(c->cdb_mem, c->cdb_fsize, bytes_of(key), klen, &state);
  if (said < 0) return damaged();
  s->cdb_cdbp = c;
  if (said) keep(s, &state);
  return said;
}

int cdb_findnext(struct cdb_find *s)
{
  struct cdb *c = s->cdb_cdbp;
  struct found value;
  if (!c) return damaged();
  if (!s->cdb_httodo) return 0;
  if (!is_open(c)) return damaged();
  struct state state = {
    .hash = s->cdb_hval,
    .table = (uint64_t)(s->cdb_htab - c->cdb_mem),
    .slots = (uint64_t)(s->cdb_htend - s->cdb_htab) / 8,
    .slot = (uint64_t)(s->cdb_htp - s->cdb_htab) / 8,
    .left = s->cdb_httodo / 8,
  };
  int32_t said = cdb_c_next(c->cdb_mem, c->cdb_fsize, bytes_of(s->cdb_key), s->cdb_klen, &state,
                            &value);
  if (said < 0) return damaged();
  if (!said) return s->cdb_httodo = 0, 0;
  keep(s, &state);
  return note(c, &value, s->cdb_klen);
}

int cdb_seqnext(unsigned *cptr, struct cdb *c)
{
  struct placed record;
  if (!is_open(c)) return damaged();
  int32_t said = cdb_c_next_record(c->cdb_mem, c->cdb_fsize, c->cdb_dend, cptr, &record);
  if (said <= 0) return said ? damaged() : 0;
  c->cdb_kpos = record.key_place;
  c->cdb_klen = record.key_len;
  c->cdb_vpos = record.value_place;
  c->cdb_vlen = record.value_len;
  return 1;
}
