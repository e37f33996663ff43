/* The hash of a key, by the proved one of crates/cdb_c. It has a file of its own, so that a program that
 * hashes and does nothing else gets no more of the static library.
 */
#include <stddef.h>
#include <stdint.h>
#include "cdb.h"

uint32_t cdb_c_hash(const uint8_t *key, size_t klen);

/* A slice has no null address. */
unsigned cdb_hash(const void *buf, unsigned len)
{
  return cdb_c_hash(buf ? buf : (const uint8_t *)"", len);
}
