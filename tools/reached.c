/* What tools/reached.py links with the program: it notes which blocks ran, in a file that all runs share.
 *
 * The compiler calls these three. They make their own calls of the system, which nothing that is loaded ahead of the C
 * library counts or refuses, and ask for no memory. Without the file nothing is noted.
 */
#define _GNU_SOURCE
#include <fcntl.h>
#include <stddef.h>
#include <stdint.h>
#include <sys/mman.h>
#include <sys/syscall.h>
#include <unistd.h>

/* Of a block its place in the program, whether it is the first of a function, and whether it ran. */
struct block { uint64_t place, is_first, ran; };

extern char __executable_start;
static struct block *blocks;
static uint32_t many;

void __sanitizer_cov_trace_pc_guard_init(uint32_t *begin, uint32_t *end)
{
  if (begin == end || *begin) return;
  while (begin < end) *begin++ = ++many;
  long file = syscall(SYS_openat, AT_FDCWD, REACHED, O_RDWR | O_CLOEXEC);
  if (file < 0) return;
  long at = syscall(SYS_mmap, NULL, sizeof *blocks * (many + 1), PROT_READ | PROT_WRITE, MAP_SHARED, file, 0L);
  if (at != -1) blocks = (struct block *)at;
  syscall(SYS_close, file);
}

void __sanitizer_cov_trace_pc_guard(uint32_t *guard)
{
  if (blocks && !blocks[*guard].ran) blocks[*guard].ran = 1;
}

void __sanitizer_cov_pcs_init(const uintptr_t *begin, const uintptr_t *end)
{
  if (!blocks || blocks[1].place) return;
  for (struct block *to = blocks + 1; begin < end; begin += 2, to++) {
    to->is_first = begin[1] & 1;
    to->place = begin[0] - (uintptr_t)&__executable_start;
  }
}
