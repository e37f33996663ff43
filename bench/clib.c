/* Times the calls of the libcdb that it is run with.
 *
 *     clib JOB FILE RECORDS CALLS
 *
 * FILE has RECORDS records with keys "k000000000" and on. JOB is find, which makes CALLS look-ups
 * in an order of no pattern, seek, which makes them by cdb_seek, all, which searches each key to its
 * end, walk, which makes CALLS walks, or keys, which makes the keys alone. The job add makes FILE by
 * cdb_make_add; insert, warn, replace and replace0 make it by cdb_make_put with this mode, and each tenth
 * record has a key that was put before. It prints the processor time of all calls in nanoseconds,
 * without opening, and the peak of memory in KiB.
 */
#include <cdb.h>
#include <fcntl.h>
#include <stdio.h>
#include <stdlib.h>
#include <string.h>
#include <time.h>

#define KEY 10

static double now(void)
{
  struct timespec t;
  clock_gettime(CLOCK_PROCESS_CPUTIME_ID, &t);
  return 1e9 * (double)t.tv_sec + (double)t.tv_nsec;
}

static void want(int holds)
{
  if (!holds) abort();
}

/* The peak of this program in KiB, without that of the one that started it. */
static long peak(void)
{
  char line[256];
  long most = 0;
  FILE *status = fopen("/proc/self/status", "r");
  want(status != NULL);
  while (fgets(line, sizeof line, status))
    if (sscanf(line, "VmHWM: %ld", &most) == 1) break;
  fclose(status);
  return most;
}

static void say(double took) { printf("%.0f %ld\n", took, peak()); }

/* The next key in order. */
static void count_up(char *key)
{
  char *digit = key + KEY - 1;
  while (*digit == '9') *digit-- = '0';
  ++*digit;
}

/* The mode of a job that puts, or none. */
static int mode_of(const char *job)
{
  static const char *const JOBS[] = { "add", "replace", "insert", "warn", "replace0" };
  for (int mode = 0; mode < 5; mode++)
    if (!strcmp(job, JOBS[mode])) return mode;
  return -1;
}

/* Puts so many records, whose keys are made as they are needed: the peak is the library's. */
static void put_records(struct cdb_make *m, unsigned records, int mode)
{
  char value[61], key[2 * KEY], again[2 * KEY];
  sprintf(key, "k%09u", 0u);
  sprintf(value, "%060u", 7u);
  for (unsigned n = 0; n < records; n++, count_up(key)) {
    int is_again = mode && n % 10 == 9;
    if (is_again) sprintf(again, "k%09u", n / 20 * 10);
    want(mode ? cdb_make_put(m, is_again ? again : key, KEY, value, 60, (enum cdb_put_mode)mode) == is_again
              : cdb_make_add(m, key, KEY, value, 60) == 0);
  }
}

static void make(const char *file, unsigned records, int mode)
{
  struct cdb_make m;
  int fd = open(file, O_RDWR | O_CREAT | O_TRUNC, 0666);
  double begin = now();
  want(cdb_make_start(&m, fd) == 0);
  put_records(&m, records, mode);
  want(cdb_make_finish(&m) == 0);
  say(now() - begin);
}

int main(int many, char **words)
{
  want(many == 5);
  unsigned records = (unsigned)atoi(words[3]), calls = (unsigned)atoi(words[4]);
  int mode = mode_of(words[1]);
  if (mode >= 0) return make(words[2], records, mode), 0;
  struct cdb c;
  int fd = open(words[2], O_RDONLY);
  want(cdb_init(&c, fd) == 0);
  char *keys = malloc((size_t)calls * KEY + 8);
  want(keys != NULL);
  unsigned long long order = 1;
  for (unsigned n = 0; n < calls; n++) {
    order = order * 6364136223846793005ull + 1442695040888963407ull;
    sprintf(keys + (size_t)n * KEY, "k%09u", (unsigned)((order >> 33) % records));
  }
  unsigned found = 0, wanted = calls;
  double begin = now();
  if (!strcmp(words[1], "find")) {
    for (unsigned n = 0; n < calls; n++) found += (unsigned)cdb_find(&c, keys + (size_t)n * KEY, KEY);
  } else if (!strcmp(words[1], "seek")) {
    unsigned len;
    for (unsigned n = 0; n < calls; n++) found += (unsigned)cdb_seek(fd, keys + (size_t)n * KEY, KEY, &len);
  } else if (!strcmp(words[1], "all")) {
    for (unsigned n = 0; n < calls; n++) {
      struct cdb_find search;
      want(cdb_findinit(&search, &c, keys + (size_t)n * KEY, KEY) > 0);
      while (cdb_findnext(&search) > 0) found++;
    }
  } else if (!strcmp(words[1], "keys")) {
    found = calls;
  } else {
    wanted = calls * records;
    for (unsigned n = 0; n < calls; n++) {
      unsigned pos;
      cdb_seqinit(&pos, &c);
      while (cdb_seqnext(&pos, &c) > 0) found++;
    }
  }
  say(now() - begin);
  want(found == wanted);
  return 0;
}
