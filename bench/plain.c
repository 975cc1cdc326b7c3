/* Answers the scripts of bench/script.py from a plain map of blocks in memory: what petal's speed is measured against.
   It checks nothing. A name has at most 32 bytes. */
#include <stdio.h>
#include <stdlib.h>
#include <string.h>

enum { BLOCK = 65536, BUCKETS = 4096, NAME = 33 };

struct entry {
    char disk[NAME];
    unsigned long long block;
    struct entry *next;
    unsigned char bytes[BLOCK];
};

static struct entry *map[BUCKETS];

static struct entry *find(const char *disk, unsigned long long block) {
    struct entry *e = map[block % BUCKETS];
    while (e && (e->block != block || strcmp(e->disk, disk)))
        e = e->next;
    return e;
}

static struct entry *put(const char *disk, unsigned long long block) {
    struct entry *e = find(disk, block);
    if (!e) {
        e = malloc(sizeof *e);
        if (!e)
            exit(3);
        strcpy(e->disk, disk);
        e->block = block;
        e->next = map[block % BUCKETS];
        map[block % BUCKETS] = e;
    }
    return e;
}

static void print_runs(const unsigned char *bytes) {
    int at = 0;
    printf("data");
    while (at < BLOCK) {
        int from = at;
        while (at < BLOCK && bytes[at] == bytes[from])
            at++;
        printf(" %dx%d", at - from, bytes[from]);
    }
    printf("\n");
}

int main(void) {
    static const unsigned char zeros[BLOCK];
    char line[300], disk[NAME];
    int number = 0;
    while (fgets(line, sizeof line, stdin)) {
        unsigned long long block;
        int fill;
        number++;
        if (sscanf(line, "%*c write %32s %llu fill %d", disk, &block, &fill) == 3) {
            memset(put(disk, block)->bytes, fill, BLOCK);
            printf("%d: ok\n", number);
        } else if (sscanf(line, "%*c read %32s %llu", disk, &block) == 2) {
            struct entry *e = find(disk, block);
            printf("%d: ", number);
            print_runs(e ? e->bytes : zeros);
        } else if (!strncmp(line, "a disk", 6)) {
            printf("%d: ok\n", number);
        }
    }
    return 0;
}
