/* The calls of libtsd.a, the proved library. A program uses tsd_embed.h, whose file makes these calls and checks what
   they are given; they are told here for those who map an image themselves.

   Every call ends with a number: 0, or that of the program's status (docs/FORMAT.md), or TSD_C_CLOSED. A pointer isn't
   NULL, and no two of a call's memories overlap, also where their length is 0: that is the caller's to see to, and
   nothing here can. One call is under way at a time over one image, in the process that opened it: so none is made by
   the handler of a signal that came during one. A call takes memory by malloc and free, and lets all of it go again but
   what a handle holds.

   image, image_bytes   the image, mapped to be read and written, shared, from its file's first byte on; nobody else
                        writes that, and the file is locked as the program locks it (flock, exclusive)
   ask, answer          descriptors. A byte to `ask` asks that all that was written to the image be on the medium; the
                        host answers by a byte on `answer`, 1 once it is so, and any other where that failed. A wait
                        that a signal ends, or that finds `answer` closed, is begun again, 1,000,000 times at most; then
                        the sync has failed */
#ifndef TSD_CALLS_H
#define TSD_CALLS_H

#include <stddef.h>
#include <stdint.h>

#ifdef __cplusplus
extern "C" {
#endif

enum { TSD_C_CLOSED = 20 };

/* A disk that stays open: all zeros before the first call, and in one place from then on. */
typedef struct {
    void *at;
} tsd_c_handle;

/* Opens an image, with no session open. What the handle held is let go. On another number than 0 it holds nothing. */
uint8_t tsd_c_open(tsd_c_handle *handle, uint8_t *image, size_t image_bytes, int32_t ask, int32_t answer);

/* Answers frames one after another, each on the medium before its reply is in the room. Sessions last from call to
   call. `filled` is how many bytes of replies there are, at the room's front. TSD_C_CLOSED where the handle holds no
   disk, or one on which a call failed before; then nothing is done. 4: a sync failed, or the image is shorter than the
   disk; the disk is closed. 6: the room was too short for the next reply, whose request may have been carried out. */
uint8_t tsd_c_apply(tsd_c_handle *handle, uint8_t *image, size_t image_bytes, int32_t ask, int32_t answer,
                    const uint8_t *frames, size_t frames_bytes, uint8_t *replies, size_t room, size_t *filled);

/* Does what is left to be done, and lets go of the disk. */
uint8_t tsd_c_close(tsd_c_handle *handle, uint8_t *image, size_t image_bytes, int32_t ask, int32_t answer);

/* Opens an image, answers frames, those that come together committed together, and lets go of it: the sessions are of
   this call alone. No handle holds the image meanwhile. */
uint8_t tsd_c_batch(uint8_t *image, size_t image_bytes, int32_t ask, int32_t answer, const uint8_t *frames,
                    size_t frames_bytes, uint8_t *replies, size_t room, size_t *filled);

/* Makes a disk. The seed has 32 bytes, from which its capabilities are drawn; a line for each primary block is put into
   the room: its number, and its capabilities to read and to write. 2 where no disk has this size. */
uint8_t tsd_c_format(uint8_t *image, size_t image_bytes, int32_t ask, int32_t answer, uint32_t blocks, uint32_t sectors,
                     uint32_t slots, uint32_t primaries, const uint8_t *seed, size_t seed_bytes, uint8_t *lines,
                     size_t room, size_t *filled);

/* How many bytes the image of a disk of this size has; 0 where no disk has it. */
uint64_t tsd_c_disk_bytes(uint32_t blocks, uint32_t sectors, uint32_t slots, uint32_t primaries);

/* How many bytes the image has whose first 512 bytes these are; 0 where they are none's. */
uint64_t tsd_c_image_bytes(const uint8_t *first, size_t first_bytes);

#ifdef __cplusplus
}
#endif

#endif
