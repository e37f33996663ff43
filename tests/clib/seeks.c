/* Looks keys up by cdb_seek in drawn files, most of them damaged, beside a plain model.
 *
 *   seeks FILES
 *
 * It is built of clib/seeking.c with the sanitizers of addresses and of what C leaves undefined, which end it at the
 * first bad access or sum. Each key is in a block of its own size. The value is read by cdb_bread where cdb_seek left
 * the offset. The library's proved calls are not linked: those that seeking.c needs are here, as docs/FORMAT.md has them.
 */
#define _GNU_SOURCE
#include <stdint.h>
#include <stdio.h>
#include <stdlib.h>
#include <string.h>
#include <sys/mman.h>
#include <unistd.h>
#include "cdb.h"

#define HEAD 2048
#define TABLES 256
#define SEEKS 10
#define MOST_RECORDS 60
#define LONGEST_KEY 400
/* What a file has at most: records with keys of 349 bytes and values of 599, and their slots. */
#define MOST_BYTES (HEAD + MOST_RECORDS * (8 + 350 + 600 + 16))
#define SHOWN 5

unsigned cdb_unpack(const unsigned char from[4])
{
  return from[0] | (unsigned)from[1] << 8 | (unsigned)from[2] << 16 | (unsigned)from[3] << 24;
}

unsigned cdb_hash(const void *key, unsigned len)
{
  const unsigned char *it = key;
  unsigned hash = 5381;
  while (len--) hash = (hash * 33) ^ *it++;
  return hash;
}

/* Numbers that are the same on each machine. */
static uint64_t state;
static unsigned below(unsigned end)
{
  state ^= state << 13;
  state ^= state >> 7;
  state ^= state << 17;
  return (unsigned)(state >> 16) % end;
}

struct file {
  unsigned char bytes[MOST_BYTES];
  uint64_t size;
  unsigned records, places[MOST_RECORDS], hashes[MOST_RECORDS];
};

static void put(struct file *f, uint64_t place, unsigned word)
{
  for (int n = 0; n < 4; n++) f->bytes[place + n] = (unsigned char)(word >> (8 * n));
}

/* A key: none, one of few, or a long one that differs from others in its last byte alone. Its length. */
static unsigned draw_key(char *key)
{
  if (!below(8)) return 0;
  if (below(6)) return (unsigned)sprintf(key, "k%u", below(45));
  unsigned len = 200 + below(150);
  memset(key, 'a', len);
  key[len - 1] = (char)('a' + below(2));
  return len;
}

static void add_record(struct file *f)
{
  char key[LONGEST_KEY];
  unsigned klen = draw_key(key), vlen = below(5) ? below(20) : below(600), n = f->records++;
  f->places[n] = (unsigned)f->size;
  f->hashes[n] = cdb_hash(key, klen);
  put(f, f->size, klen);
  put(f, f->size + 4, vlen);
  memcpy(f->bytes + f->size + 8, key, klen);
  memset(f->bytes + f->size + 8 + klen, (int)('A' + n), vlen);
  f->size += 8 + klen + vlen;
}

static void add_table(struct file *f, unsigned table)
{
  unsigned slots = 0;
  for (unsigned n = 0; n < f->records; n++) slots += 2 * (f->hashes[n] % TABLES == table);
  put(f, 8 * table, (unsigned)f->size);
  put(f, 8 * table + 4, slots);
  memset(f->bytes + f->size, 0, 8 * slots);
  for (unsigned n = 0; n < f->records; n++) {
    if (f->hashes[n] % TABLES != table) continue;
    unsigned slot = f->hashes[n] / TABLES % slots;
    while (cdb_unpack(f->bytes + f->size + 8 * slot + 4)) slot = (slot + 1) % slots;
    put(f, f->size + 8 * slot, f->hashes[n]);
    put(f, f->size + 8 * slot + 4, f->places[n]);
  }
  f->size += 8 * slots;
}

/* A word that may be taken for a place: one inside or a little outside of a file, or a great one. */
static unsigned odd_word(unsigned end) { return below(2) ? below(end) : 0xffffff00u + below(256); }

/* Damages a file: a bit, a pointer, its end, a word behind the head, or a length of a record. C leaves open which
 * argument comes first, so what is drawn for one has a name. */
static void damage(struct file *f)
{
  unsigned size = (unsigned)f->size, how = below(5), at = below(size), word = odd_word(size + 50), second = 4 * below(2);
  if (how == 0) f->bytes[at] ^= (unsigned char)(1 << word % 8);
  else if (how == 1) put(f, 4 * (at % (2 * TABLES)), word);
  else if (how == 2) f->size -= at % 300;
  else if (how == 3 && size > HEAD + 8) put(f, HEAD + 4 * (at % ((size - HEAD) / 4)), word);
  else if (how == 4 && f->records) put(f, f->places[at % f->records] + second, word % 7 ? word : word % 400);
}

static void draw_file(struct file *f)
{
  f->size = HEAD;
  f->records = 0;
  for (unsigned many = below(MOST_RECORDS); many; many--) add_record(f);
  for (unsigned table = 0; table < TABLES; table++) add_table(f, table);
  for (unsigned many = below(5); many; many--) damage(f);
}

/* What a look-up answers: 1 with the place and the length of the value, 0, or -1 for a damage. */
static int model(const struct file *f, const char *key, unsigned klen, uint64_t *place, unsigned *vlen)
{
  if (f->size < HEAD) return -1;
  unsigned hash = cdb_hash(key, klen);
  uint64_t table = cdb_unpack(f->bytes + 8 * (hash % TABLES)), slots = cdb_unpack(f->bytes + 8 * (hash % TABLES) + 4);
  if (!slots) return 0;
  if (table < HEAD || table > f->size || slots > (f->size - table) / 8) return -1;
  for (uint64_t seen = 0; seen < slots; seen++) {
    const unsigned char *slot = f->bytes + table + 8 * ((hash / TABLES + seen) % slots);
    uint64_t record = cdb_unpack(slot + 4);
    if (!record) return 0;
    if (cdb_unpack(slot) != hash) continue;
    if (record < HEAD || record + 8 > f->size) return -1;
    uint64_t key_size = cdb_unpack(f->bytes + record), value_size = cdb_unpack(f->bytes + record + 4);
    if (record + 8 + key_size + value_size > f->size) return -1;
    if (key_size != klen || memcmp(f->bytes + record + 8, key, klen)) continue;
    *place = record + 8 + klen;
    *vlen = (unsigned)value_size;
    return 1;
  }
  return 0;
}

/* Whether the value is at the offset of the file. */
static int is_value(const struct file *f, int fd, uint64_t place, unsigned vlen)
{
  if ((uint64_t)lseek(fd, 0, SEEK_CUR) != place) return 0;
  char *value = malloc(vlen ? vlen : 1);
  int same = cdb_bread(fd, value, (int)vlen) == 0 && !memcmp(value, f->bytes + place, vlen);
  free(value);
  return same;
}

/* Looks a drawn key up, and answers whether the answer is the model's. */
static int holds(const struct file *f, int fd, int *answer)
{
  char drawn[LONGEST_KEY];
  unsigned klen = draw_key(drawn), vlen = 0, found = 0;
  char *key = malloc(klen ? klen : 1);
  memcpy(key, drawn, klen);
  uint64_t place = 0;
  *answer = cdb_seek(fd, key, klen, &found);
  int wanted = model(f, key, klen, &place, &vlen);
  free(key);
  return *answer == wanted && (wanted < 1 || (found == vlen && is_value(f, fd, place, vlen)));
}

int main(int argc, char **argv)
{
  static struct file f;
  unsigned long files = argc == 2 ? strtoul(argv[1], NULL, 10) : 0, counts[3] = { 0 }, failed = 0;
  for (unsigned long n = 0; n < files; n++) {
    state = 88172645463325252u ^ (n * 2654435761u);
    for (int skipped = 0; skipped < 5; skipped++) below(2);
    draw_file(&f);
    int fd = memfd_create("file", 0);
    if (fd < 0 || write(fd, f.bytes, f.size) != (ssize_t)f.size) return 2;
    for (int seek = 0; seek < SEEKS; seek++) {
      int answer, held = holds(&f, fd, &answer);
      counts[answer + 1]++;
      failed += !held;
      if (!held && failed <= SHOWN) printf("file %lu, look-up %d: answers %d\n", n, seek, answer);
    }
    close(fd);
  }
  printf("%lu found, %lu not there, %lu damaged\n", counts[2], counts[1], counts[0]);
  printf("%lu passed, %lu failed\n", files * SEEKS - failed, failed);
  return failed > 0;
}
