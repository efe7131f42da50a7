/* Sixteen threads at one virtual disk (contrib/nbdkit/virtual_disk.c), for tests/virtual_disks.py. Each has bytes of its
   own, beside a model of them: it writes (each second write a durable one), zeroes, trims, reads and flushes at drawn
   places, and compares. The bytes of two threads share a block where they meet. At the end all is read again, from the
   disk.

     virtual_threads IMAGE CAPABILITY SIZE STEPS SEED */
#include "virtual_disk.h"

#include <pthread.h>
#include <stdio.h>
#include <stdlib.h>
#include <string.h>

enum { THREADS = 16, MOST = 20000 };

static vdisk *virtual;
static uint64_t room;
static uint32_t steps, block;

struct worker {
    pthread_t thread;
    uint64_t start;
    uint32_t state;
    uint8_t *model;
    bool is_wrong;
};

static uint32_t drawn(struct worker *w, uint64_t below) {
    w->state = w->state * 1664525u + 1013904223u;
    return (uint32_t)(((uint64_t)w->state * below) >> 32);
}

/* The whole blocks of bytes that read as zeros after a trim. */
static void trim_model(struct worker *w, uint64_t at, uint32_t count) {
    uint64_t first = (w->start + at + block - 1) / block * block, end = (w->start + at + count) / block * block;
    if (first < end) {
        memset(w->model + (first - w->start), 0, end - first);
    }
}

static bool step(struct worker *w, uint8_t *bytes) {
    vdisk_error error;
    bool is_well = true;
    uint64_t at = drawn(w, room), most = room - at < MOST ? room - at : MOST;
    uint32_t count = 1 + drawn(w, most), way = drawn(w, 10);
    if (way < 4) {
        memset(bytes, (int)drawn(w, 256), count);
        memcpy(w->model + at, bytes, count);
        is_well = vdisk_write(virtual, bytes, count, w->start + at, way % 2 == 0, &error);
    } else if (way == 4) {
        memset(w->model + at, 0, count);
        is_well = vdisk_zero(virtual, count, w->start + at, &error);
    } else if (way == 5) {
        trim_model(w, at, count);
        is_well = vdisk_trim(virtual, count, w->start + at, &error);
    } else if (way == 6) {
        is_well = vdisk_flush(virtual, &error);
    } else {
        is_well = vdisk_read(virtual, bytes, count, w->start + at, &error);
        if (is_well && memcmp(bytes, w->model + at, count) != 0) {
            fprintf(stderr, "other bytes at %llu\n", (unsigned long long)(w->start + at));
            return false;
        }
    }
    if (!is_well) {
        fprintf(stderr, "%s\n", error.words);
    }
    return is_well;
}

static void *work(void *given) {
    struct worker *w = given;
    uint8_t bytes[MOST];
    for (uint32_t each = 0; each < steps && !w->is_wrong; each++) {
        w->is_wrong = !step(w, bytes);
    }
    return NULL;
}

static bool open_it(const char *image, const char *file, uint64_t size, tsd_disk **disk) {
    tsd_capability cap;
    vdisk_error error = {0};
    if (!tsd_capability_from_file(&cap, file) || (*disk = tsd_open(image, NULL)) == NULL) {
        return false;
    }
    virtual = vdisk_open(*disk, 0, &cap, size, 1 << 20, &error);
    bool is_open = virtual != NULL && vdisk_start(virtual, &error);
    if (!is_open) {
        fprintf(stderr, "%s\n", error.words);
    }
    return is_open;
}

int main(int count, char **words) {
    static struct worker workers[THREADS];
    tsd_disk *disk;
    if (count != 6 || !open_it(words[1], words[2], strtoull(words[3], NULL, 10), &disk)) {
        return 2;
    }
    steps = (uint32_t)atoi(words[4]);
    block = vdisk_block_bytes(virtual);
    room = vdisk_size(virtual) / THREADS;
    bool is_wrong = false;
    for (int each = 0; each < THREADS; each++) {
        workers[each] = (struct worker){.start = each * room, .state = (uint32_t)atoi(words[5]) + (uint32_t)each};
        workers[each].model = calloc(1, room);
        pthread_create(&workers[each].thread, NULL, work, &workers[each]);
    }
    for (int each = 0; each < THREADS; each++) {
        pthread_join(workers[each].thread, NULL);
        is_wrong |= workers[each].is_wrong;
    }
    vdisk_error error;
    is_wrong |= !vdisk_close(virtual, &error);
    is_wrong |= !tsd_close(disk, NULL) || !open_it(words[1], words[2], 0, &disk);
    uint8_t *bytes = malloc(room);
    for (int each = 0; each < THREADS && !is_wrong; each++) {
        is_wrong = !vdisk_read(virtual, bytes, (uint32_t)room, workers[each].start, &error) ||
                   memcmp(bytes, workers[each].model, room) != 0;
        free(workers[each].model);
    }
    free(bytes);
    vdisk_close(virtual, &error);
    tsd_close(disk, NULL);
    printf("%s\n", is_wrong ? "wrong" : "right");
    return is_wrong;
}
