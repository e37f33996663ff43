/* Prints what libcdb answers on some files.
 *
 *     answers LIST [closed]
 *
 * Each line of LIST names a file and a file of keys; a key there is its length in four bytes,
 * lowest first, and its bytes. For a file it prints an answer to cdb_init, one to a walk, and four
 * to each key: all values, the first value, what cdb_seek and cdb_bread give, and the hash. An
 * answer is the status 0, 100 or 111 of the command, the number of its bytes, and the bytes.
 * A call that breaks its own page ends the program with status 1. With `closed` each call on a
 * database that was closed is made too, of which tinycdb says nothing.
 */
#include <cdb.h>
#include <errno.h>
#include <fcntl.h>
#include <stdio.h>
#include <stdlib.h>
#include <string.h>
#include <unistd.h>

static char *text;
static size_t text_len, text_room;
static int are_closed;

static void fail(const char *what)
{
  fprintf(stderr, "answers: %s\n", what);
  exit(1);
}

static void want(int holds, const char *what)
{
  if (!holds) fail(what);
}

/* Adds bytes to the answer. */
static void add(const void *bytes, size_t len)
{
  if (text_len + len > text_room) {
    text_room = 2 * (text_len + len);
    text = realloc(text, text_room);
    want(text != NULL, "out of memory");
  }
  if (len) memcpy(text + text_len, bytes, len);
  text_len += len;
}

static void answer(int status)
{
  printf("%d %zu ", status, text_len);
  fwrite(text, 1, text_len, stdout);
  putchar('\n');
  text_len = 0;
}

/* The command's status for the last answer of a call: `after` for no more. */
static int status_of(int said, int after)
{
  if (said == 0) return after;
  want(said == -1, "an answer is neither 1, 0 nor -1");
  want(errno == EPROTO, "a damage is not EPROTO");
  return 111;
}

/* Adds the value that was found, as both calls give it. */
static void add_data(struct cdb *c)
{
  unsigned len = cdb_datalen(c);
  const void *data = cdb_getdata(c);
  char *copy = malloc(len + 1);
  want(data != NULL && copy != NULL, "a value that was found is not to be had");
  want(cdb_readdata(c, copy) == 0 && memcmp(copy, data, len) == 0, "cdb_read gives another value");
  add(data, len);
  free(copy);
}

static void want_key(struct cdb *c, const void *key, unsigned klen)
{
  const void *found = cdb_getkey(c);
  want(found != NULL && cdb_keylen(c) == klen && memcmp(found, key, klen) == 0,
       "the key of a value is another");
}

/* The records as a native text, which ends with a newline if no damage follows. */
static void walk(struct cdb *c)
{
  char line[64];
  unsigned pos;
  int said;
  cdb_seqinit(&pos, c);
  while (errno = 0, (said = cdb_seqnext(&pos, c)) == 1) {
    const void *key = cdb_getkey(c);
    want(key != NULL, "a key that was found is not to be had");
    add(line, (size_t)sprintf(line, "+%u,%u:", cdb_keylen(c), cdb_datalen(c)));
    add(key, cdb_keylen(c));
    add("->", 2);
    add_data(c);
    add("\n", 1);
  }
  int status = status_of(said, 0);
  want(cdb_seqnext(&pos, c) == said, "a walk that ended goes on");
  if (status == 0) add("\n", 1);
  answer(status);
}

static void find_all(struct cdb *c, const void *key, unsigned klen)
{
  struct cdb_find search;
  int many = 0, said = (errno = 0, cdb_findinit(&search, c, key, klen));
  if (said >= 0) {
    while (errno = 0, (said = cdb_findnext(&search)) == 1) {
      want_key(c, key, klen);
      add_data(c);
      many++;
    }
    int status = status_of(said, many ? 0 : 100);
    if (status != 111) want(cdb_findnext(&search) == 0, "a search that ended goes on");
    answer(status);
  } else {
    answer(status_of(said, 100));
  }
}

static void find_first(struct cdb *c, const void *key, unsigned klen)
{
  unsigned pos = cdb_datapos(c), len = cdb_datalen(c);
  int said = (errno = 0, cdb_find(c, key, klen));
  if (said == 1) {
    want_key(c, key, klen);
    add_data(c);
    answer(0);
  } else {
    want(pos == cdb_datapos(c) && len == cdb_datalen(c), "a look-up that found nothing left a place");
    answer(status_of(said, 100));
  }
}

static void seek(int fd, const void *key, unsigned klen)
{
  unsigned len = 0;
  int said = (errno = 0, cdb_seek(fd, key, klen, &len));
  if (said == 1) {
    char *value = malloc(len + 1);
    want(value != NULL && cdb_bread(fd, value, (int)len) == 0, "cdb_bread gives no value");
    add(value, len);
    free(value);
    answer(0);
  } else {
    want(said == 0 || errno == EPROTO || errno == EIO, "a damage is not EPROTO or EIO");
    errno = EPROTO;
    answer(status_of(said, 100));
  }
}

/* Each call that reads a database that is not open is -1 or null, with EPROTO. */
static void want_closed(struct cdb *c)
{
  struct cdb_find search;
  unsigned char byte;
  unsigned pos;
  cdb_seqinit(&pos, c);
  want((errno = 0, cdb_get(c, 0, 0) == NULL) && errno == EPROTO, "cdb_get of no bytes, closed");
  want((errno = 0, cdb_get(c, 1, 0) == NULL) && errno == EPROTO, "cdb_get of a byte, closed");
  want((errno = 0, cdb_read(c, &byte, 1, 0) == -1) && errno == EPROTO, "cdb_read, closed");
  want((errno = 0, cdb_find(c, "a", 1) == -1) && errno == EPROTO, "cdb_find, closed");
  want((errno = 0, cdb_findinit(&search, c, "a", 1) == -1) && errno == EPROTO, "cdb_findinit, closed");
  want((errno = 0, cdb_findnext(&search) == -1) && errno == EPROTO, "cdb_findnext, closed");
  want((errno = 0, cdb_seqnext(&pos, c) == -1) && errno == EPROTO, "cdb_seqnext, closed");
}

/* Closes a database, while a search of a key is under way. */
static void close_base(struct cdb *c, const void *key, unsigned klen)
{
  struct cdb_find search;
  int said = cdb_findinit(&search, c, key, klen);
  cdb_free(c);
  want_closed(c);
  if (said > 0) {
    want((errno = 0, cdb_findnext(&search) == -1) && errno == EPROTO, "a search goes on");
  }
  cdb_free(c);
  want_closed(c);
}

/* All answers on one file. */
static void read_file(const char *name, const char *keys_name)
{
  unsigned char size[4];
  struct cdb c;
  int fd = open(name, O_RDONLY);
  FILE *keys = fopen(keys_name, "rb");
  want(fd >= 0 && keys != NULL, "a file can't be opened");
  int said = (errno = 0, cdb_init(&c, fd));
  answer(status_of(said, 0));
  if (said == 0) {
    want(cdb_fileno(&c) == fd, "another descriptor");
    walk(&c);
  }
  while (said == 0 && fread(size, 1, 4, keys) == 4) {
    unsigned klen = cdb_unpack(size);
    unsigned char back[4], hash[4];
    cdb_pack(klen, back);
    want(memcmp(back, size, 4) == 0, "cdb_pack is not the inverse of cdb_unpack");
    char *key = malloc(klen + 1);
    want(key != NULL && fread(key, 1, klen, keys) == klen, "a key can't be read");
    find_all(&c, key, klen);
    find_first(&c, key, klen);
    seek(fd, key, klen);
    cdb_pack(cdb_hash(key, klen), hash);
    add(hash, 4);
    answer(0);
    free(key);
  }
  if (said == 0 && are_closed) close_base(&c, "one", 3);
  else if (said == 0) cdb_free(&c);
  fclose(keys);
  close(fd);
}

int main(int many, char **words)
{
  char name[512], keys[512];
  FILE *list = many == 2 || many == 3 ? fopen(words[1], "r") : NULL;
  are_closed = many == 3 && strcmp(words[2], "closed") == 0;
  want(list != NULL && are_closed == (many == 3), "usage: answers LIST [closed]");
  while (fscanf(list, "%511s %511s", name, keys) == 2) read_file(name, keys);
  fclose(list);
  free(text);
  return 0;
}
