/* The type-safe disk in this process: an image that is mapped, and the proved library over it.

   Link with tsd_embed.c and libtsd.a; C11 and POSIX. Requests and replies are frames as docs/FORMAT.md has them, and
   the disk judges each request as the program does. docs/EMBEDDING.md says when to use this, and what the host owes.

   Threads: one call at a time over a disk; a second one meanwhile is TSD_EMBED_BUSY and does nothing. fork: a child's
   calls are TSD_EMBED_FORKED. Signals: a handler may run during a call, which goes on behind it; a call that a handler
   makes over the same disk meanwhile is TSD_EMBED_BUSY. A handler that leaves a call by a jump leaves the disk BUSY.
   In the thread that syncs all signals are blocked. */
#ifndef TSD_EMBED_H
#define TSD_EMBED_H

#include <stddef.h>
#include <stdint.h>

#ifdef __cplusplus
extern "C" {
#endif

/* How a call ended. Those below 20 are the statuses of the program. */
typedef enum {
    TSD_EMBED_OK = 0,
    TSD_EMBED_NO_SIZE = 2,    /* no disk has this size */
    TSD_EMBED_NO_IMAGE = 3,   /* the file is no image of a disk; `tsd FILE check` says why */
    TSD_EMBED_DEVICE = 4,     /* a sync failed: the disk is closed, and docs/EMBEDDING.md says what then */
    TSD_EMBED_ROOM = 6,       /* the replies didn't fit: isn't seen where the room is tsd_embed_room */
    TSD_EMBED_TOO_LONG = 7,   /* more than 2^40 bytes */
    TSD_EMBED_NO_MEMORY = 8,
    TSD_EMBED_CLOSED = 20,    /* a call on the image failed before */
    TSD_EMBED_BUSY = 21,      /* another thread is inside a call */
    TSD_EMBED_FORKED = 22,    /* another process opened the disk */
    TSD_EMBED_NULL = 23,      /* a pointer is NULL */
    TSD_EMBED_OVERLAP = 24,   /* two memories overlap, or one overlaps the image */
    TSD_EMBED_SHORT = 25,     /* there is less room than tsd_embed_room */
    TSD_EMBED_NO_FRAMES = 26, /* the bytes aren't whole frames */
    TSD_EMBED_IN_USE = 27,    /* another process, or another open of this one, has the image */
    TSD_EMBED_NOT_EMPTY = 28, /* there is a file that isn't empty, which a format would overwrite */
    TSD_EMBED_SYSTEM = 29     /* a call of the system failed: errno */
} tsd_embed_status;

/* A disk that is open. */
typedef struct tsd_embed tsd_embed;

/* Opens the image at a path: locks it, maps it, and opens its disk. On another status than OK *disk is NULL. */
tsd_embed_status tsd_embed_open(const char *path, tsd_embed **disk);

/* Carries out whole frames, one after another, and puts the reply of each behind the one before: each is on the medium
   before its reply is put. Sessions last from call to call. *filled is how many bytes of replies there are. Where a
   memory is refused (NULL, OVERLAP, SHORT, NO_FRAMES), BUSY or FORKED, nothing was done. */
tsd_embed_status tsd_embed_apply(tsd_embed *disk, const void *frames, size_t length, void *replies, size_t room,
                                 size_t *filled);

/* The same with group commit: two syncs for as many requests as fit a batch. The sessions are of this call alone, and
   those that tsd_embed_apply opened end. The image is opened for it, and again for the next tsd_embed_apply: that takes
   a time that goes by its size. */
tsd_embed_status tsd_embed_batch(tsd_embed *disk, const void *frames, size_t length, void *replies, size_t room,
                                 size_t *filled);

/* The most bytes that the replies to whole frames have; 0 where these aren't whole frames. */
size_t tsd_embed_room(const void *frames, size_t length);

/* Does what is left to be done, lets go of the image, and frees the disk; all that but the first is done on any status
   but BUSY. In another process than the one that opened it nothing is done to the image, and the library's memory of
   the disk stays until that process ends. Of NULL it is OK. */
tsd_embed_status tsd_embed_close(tsd_embed *disk);

/* Makes a disk in a file that is missing or empty, for its owner alone. The seed has 32 bytes that nobody can guess:
   from them the capabilities are drawn. A line for each primary block is put into `lines`: its number, and its
   capabilities to read and to write; 80 bytes for each are enough. The sizes are those of `tsd FILE format`. */
tsd_embed_status tsd_embed_format(const char *path, uint32_t blocks, uint32_t sectors, uint32_t slots,
                                  uint32_t primaries, const uint8_t seed[32], char *lines, size_t room, size_t *filled);

/* A status in words. */
const char *tsd_embed_words(tsd_embed_status status);

#ifdef __cplusplus
}
#endif

#endif
