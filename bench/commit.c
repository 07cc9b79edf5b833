/* The writes and syncs of ec_journal, and the reads of ec_store, by themselves. A record is its length, its body and the closed next gate, a
   sync, the gate, a sync.
   commit FILE RECORDS: appends records of 2,000 bytes to a journal in a new file, as ec_bench does with the words FILE RECORDS 0.
   commit FILE RECORDS BODY: the same for bodies of so many bytes, in the journal of a new file that is as long as a new store's; prints the
   seconds that the records took, of which each but its place stands ready.
   commit FILE read SLOTS: reads what the opening of a store reads, whose images stand in the first so many slots, into one buffer.
   commit FILE keep SLOTS: the same, and keeps the bytes of each slot in memory of their own. */
#include <fcntl.h>
#include <stdio.h>
#include <stdlib.h>
#include <string.h>
#include <time.h>
#include <unistd.h>

enum { BODY = 2000, LENGTH = 4, HEAD = 5, JOURNAL_AT = 4096, JOURNAL = 2097152, TABLE = 65536, SLOTS_AT = 4329472, SLOT = 65600 };

static void check(int is_done, const char *what) {
    if (!is_done) {
        perror(what);
        exit(1);
    }
}

static void write_synced(int file, const unsigned char *bytes, size_t count, off_t at) {
    check(pwrite(file, bytes, count, at) == (ssize_t)count, "write");
    check(fdatasync(file) == 0, "sync");
}

static double seconds(void) {
    struct timespec now;
    check(clock_gettime(CLOCK_MONOTONIC, &now) == 0, "clock");
    return (double)now.tv_sec + (double)now.tv_nsec / 1e9;
}

/* The seconds that the writes and syncs took. */
static double append_all(int file, off_t at, long count, size_t body) {
    unsigned char *record = calloc(LENGTH + body + 1, 1);
    check(record != NULL, "memory");
    record[2] = (unsigned char)(body >> 8);
    record[3] = (unsigned char)body;
    memset(record + LENGTH, 7, body);
    double start = seconds();
    for (long i = 0; i < count; i++) {
        off_t gate = at + (off_t)i * (off_t)(HEAD + body);
        write_synced(file, record, LENGTH + body + 1, gate + 1);
        write_synced(file, (const unsigned char *)"O", 1, gate);
    }
    return seconds() - start;
}

static void read_all(int file, long slots, int is_kept) {
    unsigned char *bytes = malloc(JOURNAL);
    check(bytes != NULL, "memory");
    unsigned long sum = 0;
    check(pread(file, bytes, 16, 0) == 16, "read");
    check(pread(file, bytes, TABLE, JOURNAL_AT + JOURNAL) == TABLE, "read");
    for (long i = 0; i < slots; i++) {
        unsigned char *slot = is_kept ? malloc(SLOT) : bytes;
        check(slot != NULL, "memory");
        ssize_t count = pread(file, slot, SLOT, SLOTS_AT + (off_t)i * SLOT);
        check(count > 0, "read");
        sum += slot[count - 1];
    }
    check(pread(file, bytes, JOURNAL, JOURNAL_AT) == JOURNAL, "read");
    printf("%lu\n", sum);
}

int main(int argc, char **argv) {
    if (argc != 3 && argc != 4) {
        fprintf(stderr, "usage: commit FILE RECORDS [BODY], or commit FILE read|keep SLOTS\n");
        return 2;
    }
    int is_kept = strcmp(argv[2], "keep") == 0;
    if (is_kept || strcmp(argv[2], "read") == 0) {
        int file = open(argv[1], O_RDONLY);
        check(file >= 0, "open");
        read_all(file, argc == 4 ? atol(argv[3]) : 0, is_kept);
        return 0;
    }
    long count = atol(argv[2]);
    int file = open(argv[1], O_RDWR | O_CREAT | O_TRUNC, 0666);
    check(file >= 0, "open");
    if (argc == 4) {
        write_synced(file, (const unsigned char *)"\0\0\0\1", 4, SLOTS_AT);
        printf("%.6f\n", append_all(file, JOURNAL_AT, count, (size_t)atol(argv[3])));
        return 0;
    }
    size_t size = (size_t)count * (HEAD + BODY) + 1;
    unsigned char *zeros = calloc(size, 1);
    check(zeros != NULL, "memory");
    write_synced(file, zeros, size, 0);
    append_all(file, 0, count, BODY);
    printf("%ld records\n", count);
    return 0;
}
