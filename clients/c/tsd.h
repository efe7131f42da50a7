/* A client of tsd, the type-safe disk: it asks, and the disk judges each request.

   C11 and POSIX, in this header and tsd.c alone. A disk is the program over an image, started for this process, or a
   hub at a Unix socket. Blocks are numbers, contents are bytes, and a refusal is a value with its numbers. No call
   waits for ever. docs/FORMAT.md has the frames, clients/README.md an example. It stands outside the disk's proofs.

   A disk is used by one thread at a time; each thread may join a hub by a connection of its own. */
#ifndef TSD_H
#define TSD_H

#include <stdbool.h>
#include <stddef.h>
#include <stdint.h>

enum {
    TSD_CAPABILITY_BYTES = 16,
    TSD_MOST_BLOCK_BYTES = 4096, /* the most bytes of a block */
    TSD_MOST_NEW_BLOCKS = 32,    /* the most blocks of one tsd_alloc */
    TSD_MOST_TARGETS = 64,       /* the most targets of one tsd_list */
    TSD_MOST_UNDER_WAY = 64,     /* the most requests under way at once */
    TSD_MOST_WORDS = 256,        /* the most bytes of the words of a disk's end, with the zero behind them */
    TSD_LIMIT_SECONDS = 60       /* how long no reply may come, where nothing else is said */
};

/* The 16 bytes that a request shows at a primary block. Whoever has them has the capability: tsd_capability_wipe sets
   them to zero when they aren't needed any more. Nothing here prints them, and none of their copies stays in a disk. */
typedef struct {
    uint8_t secret[TSD_CAPABILITY_BYTES];
} tsd_capability;

/* What came of a call. */
typedef enum {
    TSD_OK = 0,
    TSD_REFUSED,   /* the disk refused the request, which changed nothing: tsd_refusal_of tells by which rule */
    TSD_NO_MEMORY, /* the disk found no memory to open a session; nothing changed */
    TSD_ENDED,     /* the link ended: tsd_end_of tells why. What got no reply was carried out whole or not at all */
    TSD_BUSY       /* replies are under way that tsd_take has to take first, or as many as may be; nothing was sent */
} tsd_outcome;

/* What a session may do at a block. */
typedef enum { TSD_LEVEL_NONE, TSD_LEVEL_READ, TSD_LEVEL_WRITE } tsd_level;

/* The rule by which a request was refused, with the byte that docs/FORMAT.md gives it. */
typedef enum {
    TSD_BAD_REQUEST,
    TSD_BAD_SESSION,   /* the session isn't in 1 to 64 */
    TSD_NOT_OPEN,      /* the session isn't open */
    TSD_ALREADY_OPEN,  /* the session is open already */
    TSD_BAD_COUNT,     /* the count isn't in 1 to 32 */
    TSD_BAD_SIZE,      /* more bytes than a block has */
    TSD_NO_SUCH_BLOCK, /* the disk has no block of this number */
    TSD_FREE_BLOCK,    /* the block is free */
    TSD_NOT_PRIMARY,   /* only primary blocks have capabilities */
    TSD_IS_PRIMARY,    /* nothing points to a primary block */
    TSD_DENIED,        /* numbers: the level attained, the one needed */
    TSD_POINTER_EXISTS,
    TSD_NO_POINTER,
    TSD_FULL,         /* numbers: blocks free, wanted */
    TSD_NO_RUN,       /* enough are free, but not in a row; numbers: blocks free, wanted */
    TSD_POINTERS_FULL /* numbers: pointers held, the most that may be */
} tsd_rule;

/* A refusal: the rule, and its numbers where it has some. */
typedef struct {
    tsd_rule rule;
    uint32_t numbers[2];
} tsd_refusal;

/* Why a link ended. */
typedef enum {
    TSD_NOT_ENDED,
    TSD_NO_REPLY,      /* what came is no reply, or not one to what was asked */
    TSD_SILENT,        /* no reply came for as long as the limit */
    TSD_HUB_GONE,      /* the hub's connection ended */
    TSD_PROGRAM_ENDED, /* the program ended */
    TSD_DISK_ENDED,    /* a hub tells that its disk ended */
    TSD_HUB_FULL,      /* a hub tells that it has no session left, or none for this user */
    TSD_HUB_STOPPED,   /* a hub tells that it stops */
    TSD_HUB_IDLE,      /* a hub tells that it closes this connection, on which nothing came for long */
    TSD_SYSTEM         /* a call of the system failed */
} tsd_why;

/* How a link ended. */
typedef struct {
    tsd_why why;
    int status;                 /* of the program; below 0 the signal that killed it. Of the system: errno */
    bool inside_frame;          /* whether what came ended inside a frame */
    char words[TSD_MOST_WORDS]; /* of the program or the hub, or what failed */
} tsd_end;

/* The size of a disk, which never changes, and the version of its image. */
typedef struct {
    uint32_t block_bytes, blocks, primaries, version;
} tsd_geometry;

/* Which request. The values are the codes of docs/FORMAT.md. */
typedef enum {
    TSD_OPEN_SESSION = 1,
    TSD_CLOSE_SESSION,
    TSD_READ,
    TSD_WRITE,
    TSD_ALLOC,
    TSD_ALLOC_CONTIGUOUS,
    TSD_GET_FREE,
    TSD_CREATE,
    TSD_DELETE,
    TSD_SET_CAPABILITIES,
    TSD_SWEEP,
    TSD_LIST,
    TSD_GET_GEOMETRY = 255 /* of a hub; the program refuses it as TSD_BAD_REQUEST */
} tsd_code;

/* A request. Fields that its code doesn't have are ignored. */
typedef struct {
    tsd_code code;
    uint32_t session;                  /* 1 to 64; a hub sets it */
    uint32_t block;                    /* the block, or the source */
    const tsd_capability *shown;       /* NULL where nothing is shown; a block that isn't primary needs none */
    uint32_t number;                   /* the count, the target, or the start */
    const uint32_t *hint;              /* NULL for none */
    const void *data;                  /* of a write */
    size_t length;                     /* of the data */
    const tsd_capability *read, *write; /* the new ones */
} tsd_request;

/* An answer. What it has goes by the code of the request. */
typedef struct {
    tsd_code code;
    tsd_refusal refusal;              /* where the outcome is TSD_REFUSED */
    uint32_t numbers[TSD_MOST_TARGETS]; /* blocks or targets; how many are free, or became free */
    size_t count;                     /* of the numbers */
    tsd_geometry geometry;
    size_t length;                    /* of the bytes */
    uint8_t bytes[TSD_MOST_BLOCK_BYTES];
} tsd_answer;

/* A disk that is open. */
typedef struct tsd_disk tsd_disk;

/* How a disk is opened; all zeros are the usual. */
typedef struct {
    const char *program; /* NULL: the variable TSD_PROGRAM names it, else it is `tsd` on the path */
    const char *command; /* "serve" or "group"; NULL: "group" where the program has it, else "serve" */
    const char *place;   /* "low", "near", "spread" or "zone"; NULL: "near" */
    unsigned limit_ms;   /* so long no reply may come; 0: 60,000. The first reply waits until the image is open */
} tsd_options;

/* --- capabilities --- */

/* Of 32 hexadecimal digits of either case. False for any other text; then *cap is all zeros. */
bool tsd_capability_from_hex(tsd_capability *cap, const char *digits);
/* Of the first word of a file, as 32 hexadecimal digits. False where it has none, with errno 0, or can't be read. */
bool tsd_capability_from_file(tsd_capability *cap, const char *path);
/* One that nobody can guess, from the system. False where the system gives none. */
bool tsd_capability_random(tsd_capability *cap);
/* Whether two are equal, in a time that doesn't depend on their bytes. */
bool tsd_capability_equal(const tsd_capability *one, const tsd_capability *other);
/* Sets it to zeros, which the compiler doesn't leave out. */
void tsd_capability_wipe(tsd_capability *cap);

/* --- a disk --- */

/* Starts the program over an image, for this process alone. NULL where it can't be started or there is no memory, with
   errno. That the image can't be opened is told by the first call. The options may be NULL. */
tsd_disk *tsd_open(const char *image, const tsd_options *options);
/* Joins the hub at a Unix socket. NULL where there is none or no memory, with errno. */
tsd_disk *tsd_connect(const char *socket_path, const tsd_options *options);
/* Ends the link once the requests under way are answered, waits for the program's end, and frees the disk. True where
   the link ended well; else *end tells how, where end isn't NULL. Of NULL it is true. */
bool tsd_close(tsd_disk *disk, tsd_end *end);

/* Sends a request, and doesn't wait: TSD_OK, TSD_ENDED, or TSD_BUSY where TSD_MOST_UNDER_WAY are under way. What it
   points to isn't needed afterwards. */
tsd_outcome tsd_send(tsd_disk *disk, const tsd_request *request);
/* Holds back what tsd_send is given from now on, so that it goes out together, with the next tsd_take: requests that
   come together are committed together by "group". False where there is no memory; then it goes out as ever. */
bool tsd_hold(tsd_disk *disk);
/* Sends what is held back, and holds back no more: TSD_OK or TSD_ENDED. */
tsd_outcome tsd_release(tsd_disk *disk);
/* The answer to the oldest request under way: not TSD_BUSY. Without one it is TSD_ENDED where the link has ended, and
   else TSD_BUSY. */
tsd_outcome tsd_take(tsd_disk *disk, tsd_answer *answer);
/* Sends what is held back, and tells whether a reply has come, or the link has ended: then tsd_take doesn't wait. */
bool tsd_has_come(tsd_disk *disk);
/* What to poll for POLLIN while tsd_has_come is false. Nothing else may be done with it. */
int tsd_stream(const tsd_disk *disk);
/* How many requests are under way. */
unsigned tsd_under_way(const tsd_disk *disk);
/* Sends a request and waits for its answer: TSD_BUSY where others are under way. */
tsd_outcome tsd_ask(tsd_disk *disk, const tsd_request *request, tsd_answer *answer);

/* The refusal of the last answer that was one. */
tsd_refusal tsd_refusal_of(const tsd_disk *disk);
/* How the link ended; why is TSD_NOT_ENDED while it hasn't. */
const tsd_end *tsd_end_of(const tsd_disk *disk);
/* The words of a refusal, and of an end, put into the text; the text. */
const char *tsd_refusal_words(const tsd_refusal *refusal, char *text, size_t room);
const char *tsd_end_words(const tsd_end *end, char *text, size_t room);

/* --- the requests, each of which waits for its answer; none may be under way --- */

tsd_outcome tsd_open_session(tsd_disk *disk, uint32_t session);
tsd_outcome tsd_close_session(tsd_disk *disk, uint32_t session);
/* All bytes of a block, as many as there is room for; *length, where it isn't NULL, is how many a block has. */
tsd_outcome tsd_read(tsd_disk *disk, uint32_t session, uint32_t block, const tsd_capability *cap, void *into,
                     size_t room, size_t *length);
/* Sets a block's bytes; zeros follow to its end. */
tsd_outcome tsd_write(tsd_disk *disk, uint32_t session, uint32_t block, const tsd_capability *cap, const void *data,
                      size_t length);
/* Takes 1 to 32 free blocks, with a pointer to each from the source; *blocks has room for count. */
tsd_outcome tsd_alloc(tsd_disk *disk, uint32_t session, uint32_t source, const tsd_capability *cap,
                      const uint32_t *hint, uint32_t count, uint32_t *blocks);
/* The same with blocks in a row. */
tsd_outcome tsd_alloc_contiguous(tsd_disk *disk, uint32_t session, uint32_t source, const tsd_capability *cap,
                                 const uint32_t *hint, uint32_t count, uint32_t *blocks);
/* How many blocks are free. */
tsd_outcome tsd_get_free(tsd_disk *disk, uint32_t *count);
/* Adds a pointer; the capability is for the source. */
tsd_outcome tsd_create(tsd_disk *disk, uint32_t session, uint32_t source, const tsd_capability *cap, uint32_t target);
/* Deletes a pointer; *gone, where it isn't NULL, is how many blocks became free. */
tsd_outcome tsd_delete(tsd_disk *disk, uint32_t session, uint32_t source, const tsd_capability *cap, uint32_t target,
                       uint32_t *gone);
/* Gives a primary block new capabilities; what any session holds from it ends. */
tsd_outcome tsd_set_capabilities(tsd_disk *disk, uint32_t session, uint32_t block, const tsd_capability *cap,
                                 const tsd_capability *read, const tsd_capability *write);
/* Reclaims what no primary block leads to; *gone, where it isn't NULL, is how many blocks became free. The capability
   is for block 0. */
tsd_outcome tsd_sweep(tsd_disk *disk, uint32_t session, const tsd_capability *cap, uint32_t *gone);
/* The least 64 targets of a block's pointers that aren't below the start, ascending; *targets has room for 64. */
tsd_outcome tsd_list(tsd_disk *disk, uint32_t session, uint32_t source, const tsd_capability *cap, uint32_t start,
                     uint32_t *targets, size_t *count);
/* The size of the disk, of a hub that tells it; of any other side it is TSD_REFUSED. */
tsd_outcome tsd_get_geometry(tsd_disk *disk, tsd_geometry *geometry);

#endif
