/* The host of libtsd.a: maps an image, locks it, answers the library's syncs by a thread, and checks what each call is
   given. */
#define _POSIX_C_SOURCE 200809L
#define _DEFAULT_SOURCE /* flock */
#include "tsd_embed.h"

#include "tsd_calls.h"

#include <errno.h>
#include <fcntl.h>
#include <poll.h>
#include <pthread.h>
#include <signal.h>
#include <stdatomic.h>
#include <stdbool.h>
#include <stdlib.h>
#include <string.h>
#include <sys/file.h>
#include <sys/mman.h>
#include <sys/stat.h>
#include <unistd.h>

enum {
    SECTOR = 512,
    LENGTH_BYTES = 2,
    LAST_STANDARD = 2,
    OWNER_ALONE = 0600,
    MOST_PATH = 4096,
    SEED = 32,
    END = 'E', /* the byte that ends the syncer, which no ask of the library has */
    LOOKS = 50, /* how often the syncer looks for the next sync before it sleeps: some 10 microseconds */
    SHORT_REPLY = LENGTH_BYTES + 16, /* of a reply without data, blocks or targets */
    DATA_REPLY = LENGTH_BYTES + 1 + 4096,
    BLOCKS_REPLY = LENGTH_BYTES + 8 + 4 * 32,
    TARGETS_REPLY = LENGTH_BYTES + 8 + 4 * 64,
    CODE_READ = 3,
    CODE_ALLOC = 5,
    CODE_CONTIG = 6,
    CODE_LIST = 12
};

struct tsd_embed {
    tsd_c_handle handle;
    bool is_open;       /* whether the handle holds a disk, or did until a call on it failed */
    bool has_failed;
    atomic_flag inside; /* whether a thread is inside a call */
    unsigned born;      /* how many forks lay behind the process when it opened the disk */
    int file;
    uint8_t *image;
    size_t bytes;
    int ask, asked;     /* the ends of the pipe by which syncs are asked for */
    int answered, answer; /* those of the pipe by which they are answered */
    pthread_t syncer;
    bool has_syncer;
};

/* --- forks --- */

/* How many forks lie behind this process since it first opened a disk: a child counts one more than its parent. */
static atomic_uint forks;

static void count_fork(void) {
    atomic_fetch_add(&forks, 1);
}

static void count_forks(void) {
    pthread_atfork(NULL, NULL, count_fork);
}

static bool is_another_process(const tsd_embed *disk) {
    return disk->born != atomic_load_explicit(&forks, memory_order_relaxed);
}

/* --- syncs --- */

/* Waits for a byte that asks for a sync, or that ends the syncer. The syncs of a request come soon one after another,
   so it looks some times before it sleeps: a thread that sleeps takes longer to wake than a sync may take. */
static bool next_ask(int from, char *asked) {
    for (int looks = 0;;) {
        ssize_t count = read(from, asked, 1);
        if (count == 1) {
            return *asked != END;
        }
        if (count == 0 || (errno != EINTR && errno != EAGAIN)) {
            return false;
        }
        if (errno == EAGAIN && ++looks > LOOKS) {
            struct pollfd one = {from, POLLIN, 0};
            poll(&one, 1, -1);
        }
    }
}

static void put_byte(int to, char byte) {
    while (write(to, &byte, 1) < 0 && errno == EINTR) {
    }
}

static void *answer_syncs(void *given) {
    tsd_embed *disk = given;
    char asked;
    while (next_ask(disk->asked, &asked)) {
        put_byte(disk->answered, msync(disk->image, disk->bytes, MS_SYNC) == 0);
    }
    return NULL;
}

/* A pipe whose ends no program gets that this process starts. */
static bool make_pipe(int *reading, int *writing) {
    int ends[2];
    if (pipe(ends) != 0) {
        return false;
    }
    *reading = ends[0];
    *writing = ends[1];
    return fcntl(ends[0], F_SETFD, FD_CLOEXEC) == 0 && fcntl(ends[1], F_SETFD, FD_CLOEXEC) == 0;
}

static bool start_syncer(tsd_embed *disk) {
    sigset_t all, before;
    if (!make_pipe(&disk->asked, &disk->ask) || !make_pipe(&disk->answer, &disk->answered) ||
        fcntl(disk->asked, F_SETFL, O_NONBLOCK) != 0) {
        return false;
    }
    sigfillset(&all);
    pthread_sigmask(SIG_SETMASK, &all, &before);
    int error = pthread_create(&disk->syncer, NULL, answer_syncs, disk);
    pthread_sigmask(SIG_SETMASK, &before, NULL);
    disk->has_syncer = error == 0;
    errno = error;
    return disk->has_syncer;
}

/* --- the file and its memory --- */

/* How many bytes a file or a device has; -1 with errno. */
static off_t size_of(int file) {
    return lseek(file, 0, SEEK_END);
}

/* Gives a file so many bytes, each with a place on the medium: memory that has none may end the process when it is
   written. What it has stays. */
static bool grow(int file, off_t bytes) {
    struct stat told;
    if (fstat(file, &told) != 0) {
        return false;
    }
    if (!S_ISREG(told.st_mode)) {
        errno = ENOSPC;
        return told.st_size >= bytes || size_of(file) >= bytes;
    }
    int error = posix_fallocate(file, 0, bytes);
    if (error != 0) {
        errno = error;
        return false;
    }
    return told.st_size >= bytes || fsync(file) == 0;
}

static bool map(tsd_embed *disk, off_t bytes) {
    void *at = mmap(NULL, (size_t)bytes, PROT_READ | PROT_WRITE, MAP_SHARED, disk->file, 0);
    if (at == MAP_FAILED) {
        return false;
    }
    disk->image = at;
    disk->bytes = (size_t)bytes;
    return true;
}

/* Locks a file that is open, for this opening alone. */
static tsd_embed_status lock(int file) {
    if (flock(file, LOCK_EX | LOCK_NB) == 0) {
        return TSD_EMBED_OK;
    }
    return errno == EWOULDBLOCK ? TSD_EMBED_IN_USE : TSD_EMBED_SYSTEM;
}

/* Puts the entry of the file at a path on the medium. */
static bool sync_folder(const char *path) {
    char folder[MOST_PATH] = ".";
    const char *slash = strrchr(path, '/');
    if (slash != NULL) {
        size_t length = slash == path ? 1 : (size_t)(slash - path);
        if (length >= sizeof folder) {
            errno = ENAMETOOLONG;
            return false;
        }
        memcpy(folder, path, length);
        folder[length] = 0;
    }
    int opened = open(folder, O_RDONLY | O_CLOEXEC);
    bool done = opened >= 0 && fsync(opened) == 0;
    int error = errno;
    if (opened >= 0) {
        close(opened);
    }
    errno = error;
    return done;
}

/* Lets go of all that a disk has of the system, and frees it. errno stays. */
static void let_go(tsd_embed *disk) {
    int error = errno, files[] = {disk->ask, disk->asked, disk->answered, disk->answer, disk->file};
    if (!is_another_process(disk) && disk->has_syncer) {
        put_byte(disk->ask, END); /* a child that lives has the pipe too, so closing it ends nothing */
        pthread_join(disk->syncer, NULL);
    }
    if (disk->image != NULL) {
        munmap(disk->image, disk->bytes);
    }
    for (size_t at = 0; at < sizeof files / sizeof *files; at++) {
        if (files[at] >= 0) {
            close(files[at]);
        }
    }
    free(disk);
    errno = error;
}

static tsd_embed *begin(void) {
    static pthread_once_t once = PTHREAD_ONCE_INIT;
    pthread_once(&once, count_forks);
    tsd_embed *disk = calloc(1, sizeof *disk);
    if (disk != NULL) {
        disk->file = disk->ask = disk->asked = disk->answered = disk->answer = -1;
        disk->born = atomic_load(&forks);
        atomic_flag_clear(&disk->inside);
    }
    return disk;
}

/* --- calls --- */

static tsd_embed_status enter(tsd_embed *disk) {
    if (is_another_process(disk)) {
        return TSD_EMBED_FORKED;
    }
    return atomic_flag_test_and_set_explicit(&disk->inside, memory_order_acquire) ? TSD_EMBED_BUSY : TSD_EMBED_OK;
}

static void leave(tsd_embed *disk) {
    atomic_flag_clear_explicit(&disk->inside, memory_order_release);
}

static bool overlap(const void *one, size_t one_bytes, const void *other, size_t other_bytes) {
    uintptr_t first = (uintptr_t)one, second = (uintptr_t)other;
    return first < second + other_bytes && second < first + one_bytes;
}

static tsd_embed_status check(const tsd_embed *disk, const void *frames, size_t length, const void *replies,
                              size_t room, const size_t *filled) {
    if (disk == NULL || frames == NULL || replies == NULL || filled == NULL) {
        return TSD_EMBED_NULL;
    }
    if (overlap(frames, length, replies, room) || overlap(frames, length, disk->image, disk->bytes) ||
        overlap(replies, room, disk->image, disk->bytes) || overlap(filled, sizeof *filled, replies, room) ||
        overlap(filled, sizeof *filled, frames, length) || overlap(filled, sizeof *filled, disk->image, disk->bytes)) {
        return TSD_EMBED_OVERLAP;
    }
    size_t most = tsd_embed_room(frames, length);
    if (most == 0 && length > 0) {
        return TSD_EMBED_NO_FRAMES;
    }
    return room < most ? TSD_EMBED_SHORT : TSD_EMBED_OK;
}

/* Has the handle hold the disk, where it doesn't. */
static tsd_embed_status hold(tsd_embed *disk) {
    if (disk->has_failed) {
        return TSD_EMBED_CLOSED;
    }
    if (disk->is_open) {
        return TSD_EMBED_OK;
    }
    tsd_embed_status status = tsd_c_open(&disk->handle, disk->image, disk->bytes, disk->ask, disk->answer);
    disk->is_open = status == TSD_EMBED_OK;
    disk->has_failed = status == TSD_EMBED_DEVICE;
    return status;
}

static tsd_embed_status release(tsd_embed *disk) {
    if (!disk->is_open) {
        return TSD_EMBED_OK;
    }
    disk->is_open = false;
    tsd_embed_status status = tsd_c_close(&disk->handle, disk->image, disk->bytes, disk->ask, disk->answer);
    disk->has_failed = disk->has_failed || status == TSD_EMBED_DEVICE;
    return status;
}

size_t tsd_embed_room(const void *frames, size_t length) {
    const uint8_t *bytes = frames;
    size_t at = 0, room = 0;
    while (at < length) {
        if (length - at < LENGTH_BYTES) {
            return 0;
        }
        size_t body = bytes[at] | (size_t)bytes[at + 1] << 8;
        uint8_t code = body > 0 && length - at > LENGTH_BYTES ? bytes[at + LENGTH_BYTES] : 0;
        at += LENGTH_BYTES;
        if (length - at < body) {
            return 0;
        }
        at += body;
        room += code == CODE_READ                           ? DATA_REPLY
                : code == CODE_ALLOC || code == CODE_CONTIG ? BLOCKS_REPLY
                : code == CODE_LIST                         ? TARGETS_REPLY
                                                            : SHORT_REPLY;
    }
    return room;
}

tsd_embed_status tsd_embed_apply(tsd_embed *disk, const void *frames, size_t length, void *replies, size_t room,
                                 size_t *filled) {
    tsd_embed_status status = check(disk, frames, length, replies, room, filled);
    if (status != TSD_EMBED_OK || (status = enter(disk)) != TSD_EMBED_OK) {
        return status;
    }
    *filled = 0;
    status = hold(disk);
    if (status == TSD_EMBED_OK) {
        status = tsd_c_apply(&disk->handle, disk->image, disk->bytes, disk->ask, disk->answer, frames, length, replies,
                             room, filled);
        disk->has_failed = status == TSD_EMBED_DEVICE;
    }
    leave(disk);
    return status;
}

tsd_embed_status tsd_embed_batch(tsd_embed *disk, const void *frames, size_t length, void *replies, size_t room,
                                 size_t *filled) {
    tsd_embed_status status = check(disk, frames, length, replies, room, filled);
    if (status != TSD_EMBED_OK || (status = enter(disk)) != TSD_EMBED_OK) {
        return status;
    }
    *filled = 0;
    status = disk->has_failed ? TSD_EMBED_CLOSED : release(disk);
    if (status == TSD_EMBED_OK) {
        status = tsd_c_batch(disk->image, disk->bytes, disk->ask, disk->answer, frames, length, replies, room, filled);
        disk->has_failed = status == TSD_EMBED_DEVICE;
    }
    leave(disk);
    return status;
}

tsd_embed_status tsd_embed_close(tsd_embed *disk) {
    if (disk == NULL) {
        return TSD_EMBED_OK;
    }
    tsd_embed_status status = enter(disk);
    if (status == TSD_EMBED_BUSY) {
        return status;
    }
    if (status == TSD_EMBED_OK) {
        status = release(disk);
        leave(disk);
    }
    let_go(disk);
    return status;
}

/* Opens and locks the file of an image, as the program does. */
static tsd_embed_status open_file(tsd_embed *disk, const char *path, int flags) {
    disk->file = open(path, O_RDWR | O_CLOEXEC | flags, OWNER_ALONE);
    if (disk->file < 0) {
        return TSD_EMBED_SYSTEM;
    }
    if (disk->file <= LAST_STANDARD) {
        errno = EBADF; /* what is written to a standard stream would get into the image */
        return TSD_EMBED_SYSTEM;
    }
    return lock(disk->file);
}

static tsd_embed_status open_image(tsd_embed *disk, const char *path) {
    uint8_t first[SECTOR];
    tsd_embed_status status = open_file(disk, path, 0);
    if (status != TSD_EMBED_OK) {
        return status;
    }
    ssize_t count = pread(disk->file, first, sizeof first, 0);
    if (count < 0) {
        return TSD_EMBED_SYSTEM;
    }
    off_t bytes = count == SECTOR ? (off_t)tsd_c_image_bytes(first, sizeof first) : 0;
    if (bytes == 0) {
        return TSD_EMBED_NO_IMAGE;
    }
    if (!grow(disk->file, bytes) || !map(disk, bytes) || !start_syncer(disk)) {
        return TSD_EMBED_SYSTEM;
    }
    status = enter(disk);
    if (status == TSD_EMBED_OK) {
        status = hold(disk);
        leave(disk);
    }
    return status;
}

tsd_embed_status tsd_embed_open(const char *path, tsd_embed **disk) {
    if (path == NULL || disk == NULL) {
        return TSD_EMBED_NULL;
    }
    *disk = NULL;
    tsd_embed *begun = begin();
    if (begun == NULL) {
        return TSD_EMBED_NO_MEMORY;
    }
    tsd_embed_status status = open_image(begun, path);
    if (status != TSD_EMBED_OK) {
        let_go(begun);
        return status;
    }
    *disk = begun;
    return TSD_EMBED_OK;
}

static tsd_embed_status make_image(tsd_embed *disk, const char *path, off_t bytes) {
    struct stat told;
    tsd_embed_status status = open_file(disk, path, O_CREAT);
    if (status != TSD_EMBED_OK) {
        return status;
    }
    if (fstat(disk->file, &told) != 0) {
        return TSD_EMBED_SYSTEM;
    }
    if (!S_ISREG(told.st_mode) || told.st_size > 0) {
        return TSD_EMBED_NOT_EMPTY;
    }
    if (fchmod(disk->file, OWNER_ALONE) != 0 || !sync_folder(path) || !grow(disk->file, bytes) || !map(disk, bytes) ||
        !start_syncer(disk)) {
        return TSD_EMBED_SYSTEM;
    }
    return TSD_EMBED_OK;
}

tsd_embed_status tsd_embed_format(const char *path, uint32_t blocks, uint32_t sectors, uint32_t slots,
                                  uint32_t primaries, const uint8_t seed[32], char *lines, size_t room,
                                  size_t *filled) {
    if (path == NULL || seed == NULL || lines == NULL || filled == NULL) {
        return TSD_EMBED_NULL;
    }
    *filled = 0;
    if (overlap(lines, room, seed, SEED) || overlap(filled, sizeof *filled, lines, room)) {
        return TSD_EMBED_OVERLAP;
    }
    off_t bytes = (off_t)tsd_c_disk_bytes(blocks, sectors, slots, primaries);
    if (bytes == 0) {
        return TSD_EMBED_NO_SIZE;
    }
    if (room < (size_t)primaries * 80) {
        return TSD_EMBED_SHORT;
    }
    tsd_embed *disk = begin();
    if (disk == NULL) {
        return TSD_EMBED_NO_MEMORY;
    }
    tsd_embed_status status = make_image(disk, path, bytes);
    if (status == TSD_EMBED_OK && (status = enter(disk)) == TSD_EMBED_OK) {
        status = tsd_c_format(disk->image, disk->bytes, disk->ask, disk->answer, blocks, sectors, slots, primaries,
                              seed, SEED, (uint8_t *)lines, room, filled);
        leave(disk);
    }
    let_go(disk);
    return status;
}

const char *tsd_embed_words(tsd_embed_status status) {
    switch (status) {
    case TSD_EMBED_OK: return "done";
    case TSD_EMBED_NO_SIZE: return "no disk has this size";
    case TSD_EMBED_NO_IMAGE: return "not an image of a disk";
    case TSD_EMBED_DEVICE: return "a sync of the image failed";
    case TSD_EMBED_ROOM: return "the replies didn't fit";
    case TSD_EMBED_TOO_LONG: return "too many bytes of requests";
    case TSD_EMBED_NO_MEMORY: return "no memory";
    case TSD_EMBED_CLOSED: return "closed, since a call on the image failed before";
    case TSD_EMBED_BUSY: return "another thread is inside a call";
    case TSD_EMBED_FORKED: return "opened by another process";
    case TSD_EMBED_NULL: return "a pointer is NULL";
    case TSD_EMBED_OVERLAP: return "two memories overlap";
    case TSD_EMBED_SHORT: return "too little room for the replies";
    case TSD_EMBED_NO_FRAMES: return "not whole frames";
    case TSD_EMBED_IN_USE: return "the image is in use";
    case TSD_EMBED_NOT_EMPTY: return "the file isn't empty";
    case TSD_EMBED_SYSTEM: return "a call of the system failed";
    }
    return "no status";
}
