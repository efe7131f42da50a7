/* A host of the library, for tests/embedding.py and bench/embedding.py.

     run_embed apply | each | batch IMAGE     frames of standard input, all in one call, one in each, or all as one
                                              batch; replies to standard output, and how the last call ended
     run_embed format IMAGE BLOCKS SECTORS SLOTS PRIMARIES   by the seed 000102..1f; its lines
     run_embed refused IMAGE                  what is refused, and that nothing was done
     run_embed counts IMAGE CAPABILITY FEW    writes 1, 2, 3 .. to block 0, FEW in each call, until it is killed; each
                                              number once it is answered
     run_embed signals IMAGE CAPABILITY COUNT writes 0, 1, 2 .. to block 0, while a signal comes each 50 microseconds
                                              whose handler calls the disk too; how that ended
     run_embed time IMAGE CAPABILITY COUNT    microseconds of requests, as lines of a name and a number; the capability
                                              is one to write */
#define _DEFAULT_SOURCE
#include "../tsd_embed.h"

#include <errno.h>
#include <pthread.h>
#include <sched.h>
#include <signal.h>
#include <stdatomic.h>
#include <stdbool.h>
#include <stdio.h>
#include <stdlib.h>
#include <string.h>
#include <sys/time.h>
#include <sys/wait.h>
#include <time.h>
#include <unistd.h>

enum { MOST = 1 << 26, HEAD = 26, CAP = 16, BLOCK = 512, REFUSED = 8 };

static void put_number(uint8_t *at, uint32_t number) {
    for (int byte = 0; byte < 4; byte++) {
        at[byte] = (uint8_t)(number >> 8 * byte);
    }
}

/* A frame of session 1 and block 0 that shows a capability, with data behind; its length. */
static size_t frame(uint8_t *into, uint8_t code, const uint8_t *cap, const void *data, size_t length) {
    size_t body = (code == 1 ? 5 : code == 7 ? 1 : HEAD) + length;
    memset(into, 0, 2 + body);
    into[0] = (uint8_t)body;
    into[1] = (uint8_t)(body >> 8);
    into[2] = code;
    if (code != 7) {
        put_number(into + 3, 1);
    }
    if (code != 1 && code != 7) {
        into[11] = 1;
        memcpy(into + 12, cap, CAP);
        memcpy(into + 2 + HEAD, data, length);
    }
    return 2 + body;
}

static void cap_of(uint8_t *cap, const char *digits) {
    for (int at = 0; at < CAP; at++) {
        unsigned value = 0;
        sscanf(digits + 2 * at, "%2x", &value);
        cap[at] = (uint8_t)value;
    }
}

static tsd_embed *opened(const char *path) {
    tsd_embed *disk;
    tsd_embed_status status = tsd_embed_open(path, &disk);
    if (status != TSD_EMBED_OK) {
        fprintf(stderr, "open: %s%s%s\n", tsd_embed_words(status), status == TSD_EMBED_SYSTEM ? ": " : "",
                status == TSD_EMBED_SYSTEM ? strerror(errno) : "");
        exit(status);
    }
    return disk;
}

static int run_frames(const char *way, const char *path) {
    uint8_t *frames = malloc(MOST), *replies = NULL;
    size_t length = fread(frames, 1, MOST, stdin), at = 0, filled = 0;
    tsd_embed *disk = opened(path);
    tsd_embed_status status = TSD_EMBED_OK;
    frames = realloc(frames, length + 1); /* so that a look behind its end is seen */
    do {
        size_t some = strcmp(way, "each") == 0 && length > at ? 2 + (frames[at] | (size_t)frames[at + 1] << 8)
                                                              : length - at;
        size_t room = tsd_embed_room(frames + at, some);
        replies = realloc(replies, room + 1);
        status = (strcmp(way, "batch") == 0 ? tsd_embed_batch : tsd_embed_apply)(disk, frames + at, some, replies, room,
                                                                                 &filled);
        fwrite(replies, 1, filled, stdout);
        at += some;
    } while (status == TSD_EMBED_OK && at < length);
    tsd_embed_status closed = tsd_embed_close(disk);
    fprintf(stderr, "%s, %s\n", tsd_embed_words(status), tsd_embed_words(closed));
    free(frames);
    free(replies);
    return status;
}

static int run_format(char **words) {
    uint8_t seed[32];
    char lines[16 * 80];
    size_t filled = 0;
    for (int at = 0; at < 32; at++) {
        seed[at] = (uint8_t)at;
    }
    tsd_embed_status status = tsd_embed_format(words[0], (uint32_t)atol(words[1]), (uint32_t)atol(words[2]),
                                               (uint32_t)atol(words[3]), (uint32_t)atol(words[4]), seed, lines,
                                               sizeof lines, &filled);
    fwrite(lines, 1, filled, stdout);
    fprintf(stderr, "%s\n", tsd_embed_words(status));
    return status;
}

struct busy {
    tsd_embed *disk;
    const uint8_t *frames;
    size_t length;
    atomic_bool is_over;
};

static void *keep_busy(void *given) {
    struct busy *busy = given;
    size_t room = tsd_embed_room(busy->frames, busy->length), filled;
    uint8_t *replies = malloc(room);
    while (!busy->is_over) {
        tsd_embed_apply(busy->disk, busy->frames, busy->length, replies, room, &filled);
    }
    free(replies);
    return NULL;
}

static void say(const char *what, tsd_embed_status status) {
    printf("%s: %s\n", what, tsd_embed_words(status));
}

static int run_refused(const char *path) {
    uint8_t asked[64], room[64] = {0};
    size_t filled = 9, length = frame(asked, 7, NULL, NULL, 0), most = tsd_embed_room(asked, length);
    tsd_embed *disk = opened(path), *second = NULL;
    say("no disk", tsd_embed_apply(NULL, asked, length, room, sizeof room, &filled));
    say("no frames", tsd_embed_apply(disk, NULL, length, room, sizeof room, &filled));
    say("no room", tsd_embed_apply(disk, asked, length, NULL, sizeof room, &filled));
    say("nowhere to tell", tsd_embed_batch(disk, asked, length, room, sizeof room, NULL));
    say("one memory", tsd_embed_apply(disk, room, 3, room + 2, 60, &filled));
    say("too short", tsd_embed_apply(disk, asked, length, room, most - 1, &filled));
    say("a part of a frame", tsd_embed_apply(disk, asked, length - 1, room, sizeof room, &filled));
    say("a byte", tsd_embed_batch(disk, asked, 1, room, sizeof room, &filled));
    say("a second opening", tsd_embed_open(path, &second));
    say("no path", tsd_embed_open(NULL, &second));
    printf("untouched: %d\n", filled == 9 && room[0] == 0 && second == NULL);
    fflush(stdout);
    pid_t child = fork();
    if (child == 0) {
        say("a child", tsd_embed_apply(disk, asked, length, room, sizeof room, &filled));
        say("a child's closing", tsd_embed_close(disk));
        fflush(stdout);
        _exit(0);
    }
    waitpid(child, NULL, 0);
    uint8_t many[4000];
    size_t many_bytes = 0;
    for (int at = 0; at < 1000; at++) {
        many_bytes += frame(many + many_bytes, 7, NULL, NULL, 0);
    }
    struct busy busy = {disk, many, many_bytes, false};
    pthread_t other;
    pthread_create(&other, NULL, keep_busy, &busy);
    tsd_embed_status status = TSD_EMBED_OK;
    for (long turns = 0; turns < 100000000 && status == TSD_EMBED_OK; turns++) {
        status = tsd_embed_apply(disk, asked, length, room, sizeof room, &filled);
        sched_yield(); /* between its calls, so that the other one comes to begin */
    }
    say("a second thread", status);
    busy.is_over = true;
    pthread_join(other, NULL);
    say("then", tsd_embed_apply(disk, asked, length, room, sizeof room, &filled));
    printf("answered: %zu\n", filled);
    int until[2];
    char over;
    if (pipe(until) != 0) {
        return 1;
    }
    fflush(stdout);
    child = fork();
    if (child == 0) {
        close(until[1]);
        _exit(read(until[0], &over, 1) != 0);
    }
    say("closing, while a child lives", tsd_embed_close(disk));
    close(until[0]);
    close(until[1]);
    waitpid(child, NULL, 0);
    say("nothing", tsd_embed_close(NULL));
    return 0;
}

static int run_counts(const char *path, const char *digits, size_t few) {
    uint8_t cap[CAP], asked[64 * 64], room[64 * 32];
    size_t filled;
    cap_of(cap, digits);
    tsd_embed *disk = opened(path);
    size_t length = frame(asked, 1, NULL, NULL, 0);
    tsd_embed_apply(disk, asked, length, room, sizeof room, &filled);
    for (uint32_t number = 1;; number += (uint32_t)few) {
        length = 0;
        for (size_t at = 0; at < few; at++) {
            uint8_t bytes[4];
            put_number(bytes, number + (uint32_t)at);
            length += frame(asked + length, 4, cap, bytes, sizeof bytes);
        }
        if (tsd_embed_apply(disk, asked, length, room, sizeof room, &filled) != TSD_EMBED_OK) {
            return 1;
        }
        printf("%u\n", number + (uint32_t)few - 1);
        fflush(stdout);
    }
}

static tsd_embed *signalled;
static volatile sig_atomic_t busy_signals;

static void call_meanwhile(int signal) {
    uint8_t asked[8], room[64];
    size_t filled;
    int error = errno;
    (void)signal;
    busy_signals += tsd_embed_apply(signalled, asked, frame(asked, 7, NULL, NULL, 0), room, sizeof room, &filled) ==
                    TSD_EMBED_BUSY;
    errno = error;
}

static int run_signals(const char *path, const char *digits, size_t count) {
    uint8_t cap[CAP], asked[64], room[64];
    size_t filled, done = 0;
    struct sigaction action = {.sa_handler = call_meanwhile}; /* without SA_RESTART, so that it ends each wait */
    struct itimerval often = {{0, 50}, {0, 50}}, never = {{0, 0}, {0, 0}};
    cap_of(cap, digits);
    signalled = opened(path);
    tsd_embed_apply(signalled, asked, frame(asked, 1, NULL, NULL, 0), room, sizeof room, &filled);
    sigaction(SIGALRM, &action, NULL);
    setitimer(ITIMER_REAL, &often, NULL);
    for (tsd_embed_status status = TSD_EMBED_OK; done < count && status == TSD_EMBED_OK; done++) {
        uint8_t bytes[4];
        put_number(bytes, (uint32_t)done);
        size_t length = frame(asked, 4, cap, bytes, sizeof bytes);
        status = tsd_embed_apply(signalled, asked, length, room, sizeof room, &filled);
        if (status != TSD_EMBED_OK || filled < 3 || room[2] == REFUSED) {
            fprintf(stderr, "%s\n", tsd_embed_words(status));
            break;
        }
    }
    setitimer(ITIMER_REAL, &never, NULL);
    say("closed", tsd_embed_close(signalled));
    printf("written: %zu\nrefused to a handler: %s\n", done, busy_signals > 10 ? "many" : "few");
    return 0;
}

static double now(void) {
    struct timespec time;
    clock_gettime(CLOCK_MONOTONIC, &time);
    return (double)time.tv_sec * 1e6 + (double)time.tv_nsec / 1e3;
}

/* Ends the program where a reply is a refusal: its time would be no request's. */
static void need_granted(const uint8_t *replies, size_t filled) {
    for (size_t at = 0; at < filled; at += 2 + (replies[at] | (size_t)replies[at + 1] << 8)) {
        if (replies[at + 2] == REFUSED) {
            fprintf(stderr, "a request was refused\n");
            exit(1);
        }
    }
}

/* The microseconds of a request, of which `few` come in each call. */
static double timed(tsd_embed *disk, const uint8_t *one, size_t length, size_t few, size_t count, bool batch) {
    uint8_t *asked = malloc(few * length + 64);
    size_t bytes = batch ? frame(asked, 1, NULL, NULL, 0) : 0, filled;
    for (size_t at = 0; at < few; at++, bytes += length) {
        memcpy(asked + bytes, one, length);
    }
    size_t room = tsd_embed_room(asked, bytes);
    uint8_t *replies = malloc(room);
    double start = now();
    for (size_t done = 0; done < count; done += few) {
        tsd_embed_status status = batch ? tsd_embed_batch(disk, asked, bytes, replies, room, &filled)
                                        : tsd_embed_apply(disk, asked, bytes, replies, room, &filled);
        if (status != TSD_EMBED_OK) {
            fprintf(stderr, "%s\n", tsd_embed_words(status));
            exit(1);
        }
    }
    double taken = now() - start;
    need_granted(replies, filled);
    free(asked);
    free(replies);
    return taken / (double)count;
}

static int run_time(const char *path, const char *digits, size_t count) {
    uint8_t cap[CAP], open[64], read[64], free_count[8], write[600], data[BLOCK], room[64];
    size_t filled;
    cap_of(cap, digits);
    memset(data, 0x5a, sizeof data);
    tsd_embed *disk = opened(path);
    size_t open_bytes = frame(open, 1, NULL, NULL, 0), read_bytes = frame(read, 3, cap, NULL, 0);
    size_t free_bytes = frame(free_count, 7, NULL, NULL, 0), write_bytes = frame(write, 4, cap, data, sizeof data);
    tsd_embed_apply(disk, open, open_bytes, room, sizeof room, &filled);
    tsd_embed_apply(disk, write, write_bytes, room, sizeof room, &filled);
    printf("read 1 %.3f\n", timed(disk, read, read_bytes, 1, count, false));
    printf("read 100 %.3f\n", timed(disk, read, read_bytes, 100, count, false));
    printf("free 1 %.3f\n", timed(disk, free_count, free_bytes, 1, count, false));
    printf("free 100 %.3f\n", timed(disk, free_count, free_bytes, 100, count, false));
    printf("write 1 %.3f\n", timed(disk, write, write_bytes, 1, count / 10, false));
    printf("write batch %.3f\n", timed(disk, write, write_bytes, 100, count / 10, true));
    return (int)tsd_embed_close(disk);
}

int main(int count, char **words) {
    if (count >= 3 && strcmp(words[1], "refused") == 0) {
        return run_refused(words[2]);
    }
    if (count >= 7 && strcmp(words[1], "format") == 0) {
        return run_format(words + 2);
    }
    if (count >= 5 && strcmp(words[1], "counts") == 0) {
        return run_counts(words[2], words[3], (size_t)atol(words[4]));
    }
    if (count >= 5 && strcmp(words[1], "signals") == 0) {
        return run_signals(words[2], words[3], (size_t)atol(words[4]));
    }
    if (count >= 5 && strcmp(words[1], "time") == 0) {
        return run_time(words[2], words[3], (size_t)atol(words[4]));
    }
    return count >= 3 ? run_frames(words[1], words[2]) : 2;
}
