/* Reads a database by one job over tinycdb's library: a job, records, times. */
#include <cdb.h>
#include <fcntl.h>
#include <stdio.h>
#include <stdlib.h>
#include <string.h>

static void key_of(unsigned long number, char *key) {
    for (int i = 0; i < 10; i++) {
        key[i] = '0' + number % 10;
        number /= 10;
    }
}

int main(int argc, char **argv) {
    if (argc < 4) return 2;
    unsigned long records = strtoul(argv[2], 0, 10), times = strtoul(argv[3], 0, 10), found = 0;
    unsigned long first = strcmp(argv[1], "absent") ? 0 : records;
    struct cdb cdb;
    int fd = open("bench.cdb", O_RDONLY);
    if (fd < 0 || cdb_init(&cdb, fd) < 0) return 1;
    if (!strcmp(argv[1], "walk")) {
        while (times--) {
            unsigned pos;
            cdb_seqinit(&pos, &cdb);
            while (cdb_seqnext(&pos, &cdb) > 0) found++;
        }
    } else {
        for (unsigned long time = 0; time < times; time++) {
            char key[10];
            key_of(first + time * 7919 % records, key);
            if (cdb_find(&cdb, key, 10) > 0) found++;
        }
    }
    printf("%lu\n", found);
    return 0;
}
