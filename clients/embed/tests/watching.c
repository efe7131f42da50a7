/* Notes what the library does to the image of a host, for tests/embedded_crashes.py: writes, syncs that were answered,
   frames that were given, and replies that were put. The notes go to the file that the variable RECORDER_LOG names, and
   have the form of those of tests/recorder.c.

   Linked with -Wl,--wrap= of each function that has a __wrap_ here. A copy into the mapped image is a write, one into
   the room for replies is a put. Whatever else is stored in the image is found by comparing it with a second one, which
   has the noted writes alone: before each sync, at the end of each call, and when the mapping ends. A sector that
   differs is a write then. A sync that isn't of the whole image, or doesn't wait for the medium, isn't noted. */
#define _DEFAULT_SOURCE
#include "../tsd_calls.h"

#include <fcntl.h>
#include <stdlib.h>
#include <string.h>
#include <sys/mman.h>
#include <unistd.h>

enum { SECTOR = 512, OWNER_ALONE = 0600, NO_LOG = 98 };

struct note {
    char kind; /* W, S, P, or I where frames were given */
    char zeros[3];
    int32_t error;
    int64_t offset;
    int64_t answer;
    uint64_t length;
};

struct memory {
    uint8_t *at;
    size_t bytes;
};

static struct memory image, noted, room;

void *__real_memcpy(void *to, const void *from, size_t length);
void *__real_memmove(void *to, const void *from, size_t length);
void *__real_mmap(void *at, size_t bytes, int rights, int flags, int file, off_t offset);
int __real_munmap(void *at, size_t bytes);
int __real_msync(void *at, size_t bytes, int flags);
uint8_t __real_tsd_c_apply(tsd_c_handle *handle, uint8_t *at, size_t bytes, int32_t ask, int32_t answer,
                           const uint8_t *frames, size_t frames_bytes, uint8_t *replies, size_t most, size_t *filled);
uint8_t __real_tsd_c_batch(uint8_t *at, size_t bytes, int32_t ask, int32_t answer, const uint8_t *frames,
                           size_t frames_bytes, uint8_t *replies, size_t most, size_t *filled);

static void append(const void *bytes, size_t length) {
    static int log_file = -1;
    if (log_file < 0) {
        log_file = open(getenv("RECORDER_LOG"), O_WRONLY | O_CREAT | O_APPEND | O_CLOEXEC, OWNER_ALONE);
    }
    if (write(log_file, bytes, length) != (ssize_t)length) {
        _exit(NO_LOG);
    }
}

static void note(char kind, size_t offset, size_t length, const void *bytes) {
    struct note one = {kind, {0}, 0, (int64_t)offset, (int64_t)length, length};
    append(&one, sizeof one);
    if (bytes != NULL) {
        append(bytes, length);
    }
}

static int is_in(const struct memory *memory, const void *at) {
    return memory->at != NULL && (uintptr_t)at - (uintptr_t)memory->at < memory->bytes;
}

static void copied(void *to, size_t length) {
    if (length > 0 && is_in(&image, to)) {
        size_t offset = (size_t)((uint8_t *)to - image.at);
        __real_memcpy(noted.at + offset, to, length);
        note('W', offset, length, to);
    } else if (length > 0 && is_in(&room, to)) {
        note('P', 0, length, to);
    }
}

static void compare(void) {
    for (size_t at = 0; at < image.bytes; at += SECTOR) {
        if (memcmp(image.at + at, noted.at + at, SECTOR) != 0) {
            copied(image.at + at, SECTOR);
        }
    }
}

void *__wrap_memcpy(void *to, const void *from, size_t length) {
    __real_memcpy(to, from, length);
    copied(to, length);
    return to;
}

void *__wrap_memmove(void *to, const void *from, size_t length) {
    __real_memmove(to, from, length);
    copied(to, length);
    return to;
}

void *__wrap_mmap(void *at, size_t bytes, int rights, int flags, int file, off_t offset) {
    void *found = __real_mmap(at, bytes, rights, flags, file, offset);
    image = (struct memory){found, bytes};
    noted = (struct memory){malloc(bytes), bytes};
    if (found == MAP_FAILED || noted.at == NULL) {
        _exit(NO_LOG);
    }
    __real_memcpy(noted.at, found, bytes);
    return found;
}

int __wrap_munmap(void *at, size_t bytes) {
    compare();
    free(noted.at);
    image = noted = (struct memory){NULL, 0};
    return __real_munmap(at, bytes);
}

int __wrap_msync(void *at, size_t bytes, int flags) {
    compare();
    int result = __real_msync(at, bytes, flags);
    if (result == 0 && at == image.at && bytes >= image.bytes && (flags & MS_SYNC) != 0) {
        note('S', 0, 0, NULL);
    }
    return result;
}

uint8_t __wrap_tsd_c_apply(tsd_c_handle *handle, uint8_t *at, size_t bytes, int32_t ask, int32_t answer,
                           const uint8_t *frames, size_t frames_bytes, uint8_t *replies, size_t most, size_t *filled) {
    note('I', 0, frames_bytes, NULL);
    room = (struct memory){replies, most};
    uint8_t status = __real_tsd_c_apply(handle, at, bytes, ask, answer, frames, frames_bytes, replies, most, filled);
    room = (struct memory){NULL, 0};
    compare();
    return status;
}

uint8_t __wrap_tsd_c_batch(uint8_t *at, size_t bytes, int32_t ask, int32_t answer, const uint8_t *frames,
                           size_t frames_bytes, uint8_t *replies, size_t most, size_t *filled) {
    note('I', 0, frames_bytes, NULL);
    room = (struct memory){replies, most};
    uint8_t status = __real_tsd_c_batch(at, bytes, ask, answer, frames, frames_bytes, replies, most, filled);
    room = (struct memory){NULL, 0};
    compare();
    return status;
}
