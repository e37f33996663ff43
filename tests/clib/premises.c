/* Stops the program if the C of clib/ calls an export otherwise than its contract requires.
 *
 * The linker puts each __wrap_ function before the export of its name. Addresses are not null, a file
 * has at least a head and less than 4 GiB, and what an export writes lies outside the file. Records that
 * are appended are whole.
 */
#include <cdb.h>
#include <limits.h>
#include <stdint.h>
#include <stdio.h>
#include <stdlib.h>

#define HEAD 2048
/* How many bytes a maker puts together. */
#define BUFFER sizeof(((struct cdb_make *)0)->cdb_buf)

static void need(int holds, const char *export)
{
  if (holds) return;
  printf("%s is called otherwise than its contract requires\n", export);
  fflush(stdout);
  abort();
}

static int is_file(const uint8_t *file, size_t size)
{
  return file && size >= HEAD && size <= UINT_MAX;
}

static int is_outside(const void *it, const uint8_t *file, size_t size)
{
  return it && ((const uint8_t *)it < file || (const uint8_t *)it >= file + size);
}

/* Declares an export, and the function before it. */
#define EXPORT(type, name, words) \
  type __real_##name words; \
  type __wrap_##name words; \
  type __wrap_##name words

EXPORT(uint32_t, cdb_c_hash, (const uint8_t *key, size_t klen))
{
  need(key != NULL, "cdb_c_hash");
  return __real_cdb_c_hash(key, klen);
}

EXPORT(int32_t, cdb_c_find, (const uint8_t *file, size_t size, const uint8_t *key, size_t klen, void *found))
{
  need(is_file(file, size) && key && is_outside(found, file, size), "cdb_c_find");
  return __real_cdb_c_find(file, size, key, klen, found);
}

EXPORT(int32_t, cdb_c_begin, (const uint8_t *file, size_t size, const uint8_t *key, size_t klen, void *state))
{
  need(is_file(file, size) && key && is_outside(state, file, size), "cdb_c_begin");
  return __real_cdb_c_begin(file, size, key, klen, state);
}

EXPORT(int32_t, cdb_c_next, (const uint8_t *file, size_t size, const uint8_t *key, size_t klen, void *state,
                             void *found))
{
  need(is_file(file, size) && key && is_outside(state, file, size) && is_outside(found, file, size) &&
       state != found, "cdb_c_next");
  return __real_cdb_c_next(file, size, key, klen, state, found);
}

EXPORT(uint64_t, cdb_c_record_end, (const uint8_t *file, size_t size))
{
  need(is_file(file, size), "cdb_c_record_end");
  return __real_cdb_c_record_end(file, size);
}

EXPORT(int32_t, cdb_c_next_record, (const uint8_t *file, size_t size, uint64_t end, void *place, void *found))
{
  need(is_file(file, size) && is_outside(place, file, size) && is_outside(found, file, size),
       "cdb_c_next_record");
  return __real_cdb_c_next_record(file, size, end, place, found);
}

struct file { int *at; };

/* What is added to the number of a file that C gives, as if files had another layout. */
int32_t other_layout;

EXPORT(int32_t, cdb_c_file_number, (struct file file))
{
  need(file.at != NULL, "cdb_c_file_number");
  return __real_cdb_c_file_number(file) + other_layout;
}

EXPORT(int32_t, cdb_c_make_start, (void *handle, struct file file))
{
  need(handle && file.at, "cdb_c_make_start");
  return __real_cdb_c_make_start(handle, file);
}

EXPORT(int32_t, cdb_c_make_put, (void *handle, uint32_t mode, const uint8_t *key, size_t klen,
                                 const uint8_t *value, size_t vlen))
{
  need(handle && key && value, "cdb_c_make_put");
  return __real_cdb_c_make_put(handle, mode, key, klen, value, vlen);
}

/* Where the whole records at the start of some bytes end. */
static size_t records_end(const uint8_t *bytes, size_t size)
{
  size_t end = 0;
  while (size - end >= 8) {
    uint64_t record = 8 + (uint64_t)cdb_unpack(bytes + end) + cdb_unpack(bytes + end + 4);
    if (record > size - end) break;
    end += record;
  }
  return end;
}

EXPORT(int32_t, cdb_c_make_append, (void *handle, const uint8_t *bytes, size_t size))
{
  need(handle && bytes && size <= BUFFER && records_end(bytes, size) == size, "cdb_c_make_append");
  return __real_cdb_c_make_append(handle, bytes, size);
}

EXPORT(uint64_t, cdb_c_make_count, (void *handle))
{
  need(handle != NULL, "cdb_c_make_count");
  return __real_cdb_c_make_count(handle);
}

EXPORT(uint64_t, cdb_c_make_written, (void *handle))
{
  need(handle != NULL, "cdb_c_make_written");
  return __real_cdb_c_make_written(handle);
}

EXPORT(int32_t, cdb_c_make_exists, (void *handle, const uint8_t *key, size_t klen))
{
  need(handle && key, "cdb_c_make_exists");
  return __real_cdb_c_make_exists(handle, key, klen);
}

EXPORT(int32_t, cdb_c_make_remove, (void *handle, const uint8_t *key, size_t klen))
{
  need(handle && key, "cdb_c_make_remove");
  return __real_cdb_c_make_remove(handle, key, klen);
}
