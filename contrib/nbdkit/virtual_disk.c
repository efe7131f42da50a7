/* Whoever calls does its own work, with one lock that has the disk, the tables and the ring: reads and writes of leaves
   that are there, up to 256, in their order. They are sent in that order, and a thread takes the answers as they come;
   who waits for one waits without the lock. All else is done alone, with the lock: first what is in the ring is
   answered.

   A write of a leaf that is there returns when it stands in the ring, which has its bytes. A flush waits for the last
   one of these that is in the ring then, and so for all. A write waits for its own answer where it has to be durable,
   where none was granted before (the first tells whether the capability is one to write), and where several writes or
   flushes wait already: then batches are full anyway, and a flush that comes behind it has nothing to wait for.

   Nobody is left to whom it could be told that a write failed which has returned. So from then on each call fails, and
   so does each that waits.

   What is in the ring goes out at once, up to as many writes as fill the disk's journal: those that come while the disk
   is at work on some are committed together.

   What a leaf has by all requests up to the last one in the ring is kept in a slot of the cache: since the disk carries
   requests out in their order, that is what a read behind them would have. A reader finds it there without the lock.

   In which order. A new block is taken from its table, then written, and then named by the table's number: so a table
   names no block that isn't written. To give one back its number is zeroed first, and then its pointer goes. Whatever
   stops between leaves a block to which its table points and which it doesn't name: it is deleted when the table is
   read the next time. */
#include "virtual_disk.h"

#include <errno.h>
#include <inttypes.h>
#include <poll.h>
#include <pthread.h>
#include <semaphore.h>
#include <stdarg.h>
#include <stdatomic.h>
#include <stdio.h>
#include <stdlib.h>
#include <string.h>
#include <time.h>

#define MAGIC "TSDVDSK1"
enum { HEADER = 64, NUMBER = 4, SESSION = 1, MOST_DEPTHS = 8, RING = 256 };
/* Where so many writes and flushes wait, a write waits too. */
enum { MANY = 4 };
/* How many sectors of writes are sent and not answered at most, and the bytes of each: the disk's journal has room for
   113 (docs/FORMAT.md), so more of them wouldn't be committed together. */
enum { BATCH = 112, SECTOR = 512 };
/* After so long without an answer it is looked whether the disk is silent for too long. */
enum { NAP_NS = 100000000 };

enum kind { READ, WRITE, TRIM, ZERO, FLUSH, EXTENTS };

struct job {
    enum kind kind;
    bool is_durable; /* of a write: it is done when it is on the disk */
    uint64_t offset;
    uint32_t count;
    uint8_t *into;
    const uint8_t *from;
    vdisk_piece piece;
    void *given;
    unsigned left; /* how much of the ring is its own, and one more while it is begun */
    vdisk_error error;
    sem_t done;
    struct job *next; /* of a list of flushes */
};

/* A request for a leaf: a read, or a write, whose bytes lie in the same place of another ring. */
struct entry {
    enum kind kind;
    struct job *job; /* NULL for a write that was answered */
    struct job *flushes; /* that wait for it */
    uint64_t leaf;
    uint32_t block;
    uint32_t start, length; /* of the leaf's bytes that a read wants */
    uint8_t *into;
};

struct table {
    uint32_t block;
    uint32_t numbers[];
};

struct slot {
    uint64_t leaf;    /* and one more; 0 for none */
    unsigned pending; /* writes under way */
};

struct vdisk {
    tsd_disk *disk;
    tsd_capability cap;
    uint32_t root, block_bytes, fan, root_fan;
    unsigned depths; /* of tables below the root */
    uint64_t size, leaves;
    struct table **tables[MOST_DEPTHS];
    uint64_t counts[MOST_DEPTHS];
    pthread_mutex_t lock; /* has all but the cache */
    struct entry ring[RING];
    uint8_t *bytes; /* of the ring's writes */
    unsigned first, under_way, sent; /* of what is under way, the front that was sent */
    unsigned writing; /* writes that were sent */
    unsigned early, last_early; /* writes that were answered, and the place of the last of them */
    unsigned waiting; /* writes and flushes that wait */
    bool is_stirred; /* something was sent or taken since answers were looked for */
    bool may_write; /* a write was granted */
    vdisk_error lost; /* how a write failed that was answered */
    atomic_bool is_lost;
    tsd_answer answer;
    /* The cache: slots and their bytes. What is pending goes by the other lock. */
    pthread_mutex_t cache_lock;
    struct slot *slots;
    uint8_t *kept;
    size_t slot_count;
    /* The thread. */
    pthread_cond_t more; /* something is under way, or all ends */
    bool is_started, is_ending;
    pthread_t thread;
};

static uint32_t number_at(const uint8_t *bytes) {
    return (uint32_t)bytes[0] | (uint32_t)bytes[1] << 8 | (uint32_t)bytes[2] << 16 | (uint32_t)bytes[3] << 24;
}

static void put_number(uint8_t *bytes, uint32_t number) {
    for (int at = 0; at < NUMBER; at++) {
        bytes[at] = (uint8_t)(number >> 8 * at);
    }
}

/* --- errors --- */

static bool fail(vdisk_error *error, int number, const char *form, ...) {
    if (error->number == 0) {
        va_list words;
        va_start(words, form);
        vsnprintf(error->words, sizeof error->words, form, words);
        va_end(words);
        for (char *at = error->words; *at != 0; at++) {
            *at = *at == '\n' ? ';' : *at;
        }
        error->number = number;
    }
    return false;
}

/* Of a call of the disk: true where it is done. */
static bool well(vdisk *v, tsd_outcome outcome, vdisk_error *error) {
    char text[TSD_MOST_WORDS + 100];
    tsd_refusal refusal;
    switch (outcome) {
    case TSD_OK:
        return true;
    case TSD_REFUSED:
        refusal = tsd_refusal_of(v->disk);
        tsd_refusal_words(&refusal, text, sizeof text);
        if (refusal.rule == TSD_FULL) {
            return fail(error, ENOSPC, "%s: trim what isn't used, or move to a larger disk by tsd-copy", text);
        }
        if (refusal.rule == TSD_POINTERS_FULL) {
            return fail(error, ENOSPC, "%s: trim what isn't used, or make a disk with more pointer slots", text);
        }
        if (refusal.rule == TSD_DENIED) {
            return fail(error, EPERM, "%s: the capability isn't right for this, or gives reading alone", text);
        }
        return fail(error, EIO, "%s", text);
    case TSD_NO_MEMORY:
        return fail(error, ENOMEM, "the disk has no memory to open a session");
    case TSD_BUSY:
        return fail(error, EIO, "a request was sent out of turn");
    default:
        return fail(error, EIO, "%s: start the hub and this server again",
                    tsd_end_words(tsd_end_of(v->disk), text, sizeof text));
    }
}

/* --- the cache --- */

static struct slot *slot_of(vdisk *v, uint64_t leaf) {
    return v->slot_count > 0 ? &v->slots[leaf % v->slot_count] : NULL;
}

/* Bytes of a leaf that is kept. */
static bool from_cache(vdisk *v, uint64_t leaf, uint32_t start, uint32_t length, uint8_t *into) {
    struct slot *slot = slot_of(v, leaf);
    if (slot == NULL) {
        return false;
    }
    pthread_mutex_lock(&v->cache_lock);
    bool is_there = slot->leaf == leaf + 1;
    if (is_there) {
        memcpy(into, v->kept + (leaf % v->slot_count) * v->block_bytes + start, length);
    }
    pthread_mutex_unlock(&v->cache_lock);
    return is_there;
}

static void keep(vdisk *v, uint64_t leaf, const uint8_t *bytes) {
    struct slot *slot = slot_of(v, leaf);
    if (slot != NULL) {
        pthread_mutex_lock(&v->cache_lock);
        memcpy(v->kept + (leaf % v->slot_count) * v->block_bytes, bytes, v->block_bytes);
        slot->leaf = leaf + 1;
        pthread_mutex_unlock(&v->cache_lock);
    }
}

static void drop(vdisk *v, uint64_t leaf) {
    struct slot *slot = slot_of(v, leaf);
    if (slot != NULL) {
        pthread_mutex_lock(&v->cache_lock);
        slot->leaf = 0;
        pthread_mutex_unlock(&v->cache_lock);
    }
}

/* --- the ring --- */

/* How many writes of leaves are sent and not answered at most. */
static unsigned batch_of(const vdisk *v) {
    unsigned batch = BATCH * SECTOR / v->block_bytes;
    return batch < TSD_MOST_UNDER_WAY ? batch : TSD_MOST_UNDER_WAY;
}

/* A write that was answered failed: what was told isn't so. */
static void lose(vdisk *v, const vdisk_error *why) {
    fail(&v->lost, EIO, "a write that was answered is lost: %s", why->words);
    atomic_store(&v->is_lost, true);
}

/* Whether a write that was answered is lost; then that is the error. */
static bool has_lost(vdisk *v, vdisk_error *error) {
    if (v->lost.number != 0) {
        fail(error, v->lost.number, "%s", v->lost.words);
    }
    return v->lost.number != 0;
}

/* Something of the ring that a job waits for is done. */
static void let_go(vdisk *v, struct job *job) {
    has_lost(v, &job->error);
    if (--job->left == 0) {
        v->waiting -= job->kind != READ;
        sem_post(&job->done);
    }
}

/* The answer to a read or a write of a leaf. */
static void take_leaf(vdisk *v, const struct entry *entry) {
    struct slot *slot = slot_of(v, entry->leaf);
    vdisk_error error = {0};
    bool is_write = entry->kind == WRITE, is_done = well(v, tsd_take(v->disk, &v->answer), &error);
    v->writing -= is_write;
    if (is_write && slot != NULL) {
        slot->pending--;
    }
    if (is_done && is_write) {
        v->may_write = true;
    } else if (is_done) {
        memcpy(entry->into, v->answer.bytes + entry->start, entry->length);
        if (slot != NULL && slot->pending == 0) {
            keep(v, entry->leaf, v->answer.bytes);
        }
    } else {
        drop(v, entry->leaf);
        if (entry->job == NULL) {
            lose(v, &error);
        } else {
            fail(&entry->job->error, error.number, "%s", error.words);
        }
    }
}

/* The oldest of the ring, which was sent, once it is answered. */
static void take(vdisk *v) {
    struct entry entry = v->ring[v->first];
    v->first = (v->first + 1) % RING;
    v->under_way--;
    v->sent--;
    v->is_stirred = true;
    take_leaf(v, &entry);
    if (entry.job != NULL) {
        let_go(v, entry.job);
    } else {
        v->early--;
    }
    for (struct job *next, *flush = entry.flushes; flush != NULL; flush = next) {
        next = flush->next;
        let_go(v, flush);
    }
}

/* Sends what isn't sent, as far as there is room. It goes out when answers are looked for. */
static void send_some(vdisk *v) {
    unsigned batch = batch_of(v);
    while (v->sent < v->under_way && tsd_under_way(v->disk) < TSD_MOST_UNDER_WAY) {
        unsigned place = (v->first + v->sent) % RING;
        struct entry *entry = &v->ring[place];
        bool is_write = entry->kind == WRITE;
        if (is_write && v->writing == batch) {
            break;
        }
        tsd_request request = {.code = is_write ? TSD_WRITE : TSD_READ, .session = SESSION, .block = entry->block};
        request.data = is_write ? v->bytes + (size_t)place * v->block_bytes : NULL;
        request.length = is_write ? v->block_bytes : 0;
        tsd_send(v->disk, &request); /* where the link has ended the answers tell it */
        v->writing += is_write;
        v->sent++;
        v->is_stirred = true;
    }
}

static void take_all(vdisk *v) {
    while (v->under_way > 0) {
        send_some(v);
        take(v);
    }
}

/* Puts something at the end of the ring; a write with the bytes of its leaf. */
static void put(vdisk *v, struct entry entry, const uint8_t *bytes) {
    struct slot *slot = slot_of(v, entry.leaf);
    while (v->under_way == RING) {
        send_some(v);
        take(v);
    }
    unsigned place = (v->first + v->under_way) % RING;
    v->ring[place] = entry;
    if (entry.kind == WRITE) {
        memcpy(v->bytes + (size_t)place * v->block_bytes, bytes, v->block_bytes);
        keep(v, entry.leaf, bytes);
        if (slot != NULL) {
            slot->pending++;
        }
    }
    if (entry.job != NULL) {
        entry.job->left++;
    }
    if (v->under_way++ == 0) {
        pthread_cond_signal(&v->more);
    }
}

/* Puts a write of a leaf that has this block in the ring, and has its job wait for it where that isn't answered. */
static void put_write(vdisk *v, struct job *job, uint64_t leaf, uint32_t block, const uint8_t *bytes) {
    bool waits = job->is_durable || !v->may_write || tsd_end_of(v->disk)->why != TSD_NOT_ENDED || v->waiting >= MANY;
    put(v, (struct entry){.kind = WRITE, .job = waits ? job : NULL, .leaf = leaf, .block = block}, bytes);
    if (!waits) {
        v->early++;
        v->last_early = (v->first + v->under_way - 1) % RING;
    }
}

/* Has a flush wait for the writes that were answered. */
static void put_flush(vdisk *v, struct job *job) {
    if (v->early > 0) {
        job->next = v->ring[v->last_early].flushes;
        v->ring[v->last_early].flushes = job;
        job->left++;
    }
}

/* Takes the answers that have come, and sends what there is room for. (Whoever sends or takes may read answers to
   others from the stream; then the thread, which waits at the stream, wouldn't see them.) */
static void take_some(vdisk *v) {
    do {
        while (v->sent > 0 && tsd_has_come(v->disk)) {
            take(v);
        }
        v->is_stirred = false;
        send_some(v);
    } while (v->is_stirred);
}

/* --- tables; from here on nothing is under way where the disk is asked --- */

static const tsd_capability *cap_of(const vdisk *v, uint32_t block) {
    return block == v->root ? &v->cap : NULL;
}

static uint32_t room_of(const vdisk *v, unsigned depth) {
    return depth == 0 ? v->root_fan : v->fan;
}

static int by_number(const void *one, const void *other) {
    uint32_t a = *(const uint32_t *)one, b = *(const uint32_t *)other;
    return (a > b) - (a < b);
}

static bool is_in(const uint32_t *numbers, size_t count, uint32_t wanted) {
    return bsearch(&wanted, numbers, count, sizeof wanted, by_number) != NULL;
}

/* Deletes what a table points to and doesn't name: a stop left it. A capability to read leaves it there. */
static bool mend(vdisk *v, const struct table *table, uint32_t room, vdisk_error *error) {
    uint32_t targets[TSD_MOST_TARGETS], start = 0, *named = malloc(room * sizeof *named);
    size_t count = 0, found = 0, wanted = 0;
    if (named == NULL) {
        return fail(error, ENOMEM, "there is no memory for a table");
    }
    memcpy(named, table->numbers, room * sizeof *named);
    qsort(named, room, sizeof *named, by_number);
    for (uint32_t at = 0; at < room; at++) {
        wanted += named[at] != 0;
    }
    bool is_well = true;
    do {
        is_well = well(v, tsd_list(v->disk, SESSION, table->block, cap_of(v, table->block), start, targets, &count),
                       error);
        for (size_t at = 0; is_well && at < count; at++) {
            start = targets[at] + 1;
            if (is_in(named, room, targets[at])) {
                found++;
                continue;
            }
            const tsd_capability *cap = cap_of(v, table->block);
            tsd_outcome outcome = tsd_delete(v->disk, SESSION, table->block, cap, targets[at], NULL);
            bool is_denied = outcome == TSD_REFUSED && tsd_refusal_of(v->disk).rule == TSD_DENIED;
            is_well = is_denied || well(v, outcome, error);
        }
    } while (is_well && count == TSD_MOST_TARGETS);
    free(named);
    if (is_well && found != wanted) {
        return fail(error, EIO, "the table in block %" PRIu32 " names a block that it doesn't point to", table->block);
    }
    return is_well;
}

static struct table *new_table(vdisk *v, unsigned depth, uint64_t index, uint32_t block, vdisk_error *error) {
    struct table *table = calloc(1, sizeof *table + room_of(v, depth) * sizeof *table->numbers);
    if (table == NULL) {
        fail(error, ENOMEM, "there is no memory for a table");
        return NULL;
    }
    table->block = block;
    return v->tables[depth][index] = table;
}

static void forget_table(vdisk *v, unsigned depth, uint64_t index) {
    free(v->tables[depth][index]);
    v->tables[depth][index] = NULL;
}

/* Which table of the depth above names this one, and where in it. */
static void find_parent(const vdisk *v, unsigned depth, uint64_t index, uint64_t *parent, uint32_t *at) {
    *parent = depth == 1 ? 0 : index / v->fan;
    *at = (uint32_t)(depth == 1 ? index : index % v->fan);
}

/* Writes a table with these numbers. */
static tsd_request table_write(vdisk *v, const struct table *table, const uint32_t *numbers, uint8_t *bytes) {
    uint32_t head = table->block == v->root ? HEADER : 0, room = (v->block_bytes - head) / NUMBER;
    memset(bytes, 0, head);
    if (head > 0) {
        memcpy(bytes, MAGIC, 8);
        put_number(bytes + 8, (uint32_t)v->size);
        put_number(bytes + 12, (uint32_t)(v->size >> 32));
        put_number(bytes + 16, v->block_bytes);
        put_number(bytes + 20, v->depths);
    }
    for (uint32_t at = 0; at < room; at++) {
        put_number(bytes + head + NUMBER * at, numbers[at]);
    }
    return (tsd_request){.code = TSD_WRITE, .session = SESSION, .block = table->block,
                         .shown = cap_of(v, table->block), .data = bytes, .length = v->block_bytes};
}

/* The table at a depth, read where it wasn't; NULL where it has no block, or with an error. */
static struct table *table_at(vdisk *v, unsigned depth, uint64_t index, vdisk_error *error) {
    if (v->tables[depth][index] != NULL) {
        return v->tables[depth][index];
    }
    uint64_t parent;
    uint32_t at;
    find_parent(v, depth, index, &parent, &at);
    struct table *above = table_at(v, depth - 1, parent, error);
    if (above == NULL || above->numbers[at] == 0) {
        return NULL;
    }
    take_all(v);
    uint8_t bytes[TSD_MOST_BLOCK_BYTES];
    uint32_t block = above->numbers[at];
    if (!well(v, tsd_read(v->disk, SESSION, block, NULL, bytes, sizeof bytes, NULL), error)) {
        return NULL;
    }
    struct table *table = new_table(v, depth, index, block, error);
    for (uint32_t each = 0; table != NULL && each < v->fan; each++) {
        table->numbers[each] = number_at(bytes + NUMBER * each);
    }
    if (table != NULL && !mend(v, table, v->fan, error)) {
        forget_table(v, depth, index);
        return NULL;
    }
    return table;
}

/* Has a table name blocks from a place on, behind these requests, which are all under way at once; then it does so
   here. */
static bool name(vdisk *v, struct table *table, uint32_t at, const uint32_t *blocks, uint32_t count,
                 const tsd_request *before, unsigned requests, vdisk_error *error) {
    uint8_t bytes[TSD_MOST_BLOCK_BYTES];
    uint32_t room = room_of(v, table->block == v->root ? 0 : 1), *later = malloc(room * sizeof *later);
    if (later == NULL) {
        return fail(error, ENOMEM, "there is no memory for a table");
    }
    memcpy(later, table->numbers, room * sizeof *later);
    for (uint32_t each = 0; each < count; each++) {
        later[at + each] = blocks[each];
    }
    tsd_request written = table_write(v, table, later, bytes);
    for (unsigned each = 0; each <= requests; each++) {
        well(v, tsd_send(v->disk, each < requests ? &before[each] : &written), error);
    }
    while (tsd_under_way(v->disk) > 0) {
        well(v, tsd_take(v->disk, &v->answer), error);
    }
    if (error->number == 0) {
        memcpy(table->numbers, later, room * sizeof *later);
        v->may_write = true;
    }
    free(later);
    return error->number == 0;
}

/* The table at a depth, which is made where it isn't there; NULL with an error. */
static struct table *made_table(vdisk *v, unsigned depth, uint64_t index, vdisk_error *error) {
    struct table *table = table_at(v, depth, index, error);
    if (table != NULL || error->number != 0) {
        return table;
    }
    uint64_t parent;
    uint32_t at, block;
    find_parent(v, depth, index, &parent, &at);
    struct table *above = made_table(v, depth - 1, parent, error);
    if (above == NULL ||
        !well(v, tsd_alloc(v->disk, SESSION, above->block, cap_of(v, above->block), NULL, 1, &block), error) ||
        !name(v, above, at, &block, 1, NULL, 0, error)) {
        return NULL;
    }
    return new_table(v, depth, index, block, error);
}

/* --- leaves --- */

static uint64_t table_of(const vdisk *v, uint64_t leaf, uint32_t *at) {
    *at = (uint32_t)(v->depths == 0 ? leaf : leaf % v->fan);
    return v->depths == 0 ? 0 : leaf / v->fan;
}

/* The block of a leaf; 0 where it has none, or with an error. */
static uint32_t block_of(vdisk *v, uint64_t leaf, vdisk_error *error) {
    uint32_t at;
    uint64_t index = table_of(v, leaf, &at);
    struct table *table = table_at(v, v->depths, index, error);
    return table != NULL ? table->numbers[at] : 0;
}

/* Writes leaves without a block, of one table, at most 32. */
static bool write_new(vdisk *v, uint64_t leaf, uint32_t count, const uint8_t *from, vdisk_error *error) {
    uint32_t at, blocks[TSD_MOST_NEW_BLOCKS];
    tsd_request writes[TSD_MOST_NEW_BLOCKS];
    uint64_t index = table_of(v, leaf, &at);
    take_all(v);
    struct table *table = made_table(v, v->depths, index, error);
    if (table == NULL || !well(v, tsd_alloc(v->disk, SESSION, table->block, cap_of(v, table->block), &table->block,
                                            count, blocks), error)) {
        return false;
    }
    for (uint32_t each = 0; each < count; each++) {
        writes[each] = (tsd_request){.code = TSD_WRITE, .session = SESSION, .block = blocks[each],
                                     .data = from + (size_t)each * v->block_bytes, .length = v->block_bytes};
        drop(v, leaf + each);
    }
    if (!name(v, table, at, blocks, count, writes, count, error)) {
        return false;
    }
    for (uint32_t each = 0; each < count; each++) {
        keep(v, leaf + each, from + (size_t)each * v->block_bytes);
    }
    return true;
}

/* How many leaves from this one on have no block and stand in one table: at most so many, and 32. */
static uint32_t new_ones(vdisk *v, uint64_t leaf, uint64_t most, vdisk_error *error) {
    uint32_t at, count = 0;
    table_of(v, leaf, &at);
    while (count < most && count < TSD_MOST_NEW_BLOCKS && at + count < room_of(v, v->depths) &&
           block_of(v, leaf + count, error) == 0 && error->number == 0) {
        count++;
    }
    return count;
}

/* Whole leaves: those that are there stand in the ring when it returns. */
static bool write_leaves(vdisk *v, struct job *job, uint64_t leaf, uint64_t end, const uint8_t *from) {
    while (leaf < end && job->error.number == 0) {
        uint32_t count = 1, block = block_of(v, leaf, &job->error);
        if (job->error.number != 0) {
            break;
        }
        if (block != 0) {
            put_write(v, job, leaf, block, from);
        } else if ((count = new_ones(v, leaf, end - leaf, &job->error)) > 0) {
            write_new(v, leaf, count, from, &job->error);
        }
        leaf += count;
        from += (size_t)count * v->block_bytes;
    }
    return job->error.number == 0;
}

/* Bytes of one leaf; NULL are zeros. */
static bool write_part(vdisk *v, struct job *job, uint64_t leaf, uint32_t start, uint32_t length,
                       const uint8_t *from) {
    uint8_t bytes[TSD_MOST_BLOCK_BYTES] = {0};
    uint32_t block = block_of(v, leaf, &job->error);
    if (job->error.number != 0 || (block == 0 && from == NULL)) {
        return job->error.number == 0;
    }
    if (block != 0 && !from_cache(v, leaf, 0, v->block_bytes, bytes)) {
        take_all(v);
        if (!well(v, tsd_read(v->disk, SESSION, block, NULL, bytes, sizeof bytes, NULL), &job->error)) {
            return false;
        }
    }
    if (from != NULL) {
        memcpy(bytes + start, from, length);
    } else {
        memset(bytes + start, 0, length);
    }
    if (block == 0) {
        return write_new(v, leaf, 1, bytes, &job->error);
    }
    put_write(v, job, leaf, block, bytes);
    return true;
}

/* --- jobs --- */

static void do_read(vdisk *v, struct job *job) {
    uint64_t at = job->offset, end = job->offset + job->count;
    uint8_t *into = job->into;
    while (at < end && job->error.number == 0) {
        uint64_t leaf = at / v->block_bytes;
        uint32_t start = (uint32_t)(at % v->block_bytes), length = v->block_bytes - start;
        length = end - at < length ? (uint32_t)(end - at) : length;
        if (!from_cache(v, leaf, start, length, into)) {
            uint32_t block = block_of(v, leaf, &job->error);
            if (block == 0) {
                memset(into, 0, length);
            } else {
                put(v, (struct entry){.kind = READ, .job = job, .leaf = leaf, .block = block, .start = start,
                                      .length = length, .into = into}, NULL);
            }
        }
        at += length;
        into += length;
    }
}

/* Without bytes they are zeros, and whole leaves are left. */
static void do_write(vdisk *v, struct job *job) {
    uint64_t at = job->offset, end = job->offset + job->count, whole = end / v->block_bytes;
    const uint8_t *from = job->from;
    while (at < end && job->error.number == 0) {
        uint64_t leaf = at / v->block_bytes;
        uint32_t start = (uint32_t)(at % v->block_bytes);
        uint64_t length = v->block_bytes - start;
        if (start == 0 && leaf < whole) {
            length = (whole - leaf) * v->block_bytes;
            if (from != NULL) {
                write_leaves(v, job, leaf, whole, from);
            }
        } else {
            length = end - at < length ? end - at : length;
            write_part(v, job, leaf, start, (uint32_t)length, from);
        }
        at += length;
        from = from != NULL ? from + length : NULL;
    }
}

/* Gives back the leaves of a table from one place to another. */
static bool give_back(vdisk *v, struct table *table, uint64_t leaf, uint32_t at, uint32_t count, vdisk_error *error) {
    uint32_t *old = malloc(count * sizeof *old), *zeros = calloc(count, sizeof *zeros);
    bool is_well = old != NULL && zeros != NULL;
    if (is_well) {
        memcpy(old, table->numbers + at, count * sizeof *old);
        for (uint32_t each = 0; each < count; each++) {
            drop(v, leaf + each);
        }
        is_well = memcmp(old, zeros, count * sizeof *old) == 0 || name(v, table, at, zeros, count, NULL, 0, error);
    } else {
        fail(error, ENOMEM, "there is no memory to give blocks back");
    }
    for (uint32_t each = 0; is_well && each < count; each++) {
        if (old[each] != 0) {
            tsd_request request = {.code = TSD_DELETE, .session = SESSION, .block = table->block,
                                   .shown = cap_of(v, table->block), .number = old[each]};
            if (tsd_under_way(v->disk) == TSD_MOST_UNDER_WAY) {
                well(v, tsd_take(v->disk, &v->answer), error);
            }
            is_well = well(v, tsd_send(v->disk, &request), error);
        }
    }
    while (tsd_under_way(v->disk) > 0) {
        well(v, tsd_take(v->disk, &v->answer), error);
    }
    free(old);
    free(zeros);
    return error->number == 0;
}

static void do_trim(vdisk *v, struct job *job) {
    uint64_t leaf = (job->offset + v->block_bytes - 1) / v->block_bytes;
    uint64_t end = (job->offset + job->count) / v->block_bytes;
    take_all(v);
    while (leaf < end && job->error.number == 0) {
        uint32_t at;
        uint64_t index = table_of(v, leaf, &at), count = room_of(v, v->depths) - at;
        count = end - leaf < count ? end - leaf : count;
        struct table *table = table_at(v, v->depths, index, &job->error);
        if (table != NULL) {
            give_back(v, table, leaf, at, (uint32_t)count, &job->error);
        }
        leaf += count;
    }
}

static void do_extents(vdisk *v, struct job *job) {
    uint64_t start = job->offset, at = start, end = job->offset + job->count;
    bool was_there = false;
    while (at < end && job->error.number == 0) {
        bool is_there = block_of(v, at / v->block_bytes, &job->error) != 0;
        if (at > start && is_there != was_there) {
            if (!job->piece(job->given, start, at - start, was_there)) {
                fail(&job->error, ENOMEM, "there is no memory to tell which blocks are there");
            }
            start = at;
        }
        was_there = is_there;
        at = (at / v->block_bytes + 1) * v->block_bytes;
    }
    if (job->error.number == 0 && end > start && !job->piece(job->given, start, end - start, was_there)) {
        fail(&job->error, ENOMEM, "there is no memory to tell which blocks are there");
    }
}

static void begin(vdisk *v, struct job *job) {
    switch (job->kind) {
    case READ:
        do_read(v, job);
        break;
    case WRITE:
        do_write(v, job);
        break;
    case ZERO:
        do_write(v, job);
        if (job->error.number == 0) {
            do_trim(v, job);
        }
        break;
    case TRIM:
        do_trim(v, job);
        break;
    case FLUSH:
        put_flush(v, job);
        break;
    case EXTENTS:
        do_extents(v, job);
    }
}

/* Does a job, and waits until it is done. */
static bool done(vdisk *v, struct job *job, vdisk_error *error) {
    job->left = 1;
    sem_init(&job->done, 0, 0);
    pthread_mutex_lock(&v->lock);
    if (!has_lost(v, &job->error)) {
        begin(v, job);
        has_lost(v, &job->error);
    }
    bool waits = --job->left > 0;
    v->waiting += waits && job->kind != READ;
    send_some(v);
    if (v->is_stirred) {
        take_some(v);
    }
    pthread_mutex_unlock(&v->lock);
    while (waits && sem_wait(&job->done) != 0) {
    }
    sem_destroy(&job->done);
    *error = job->error;
    return error->number == 0;
}

/* Waits until something may have come. */
static void nap(vdisk *v) {
    struct pollfd ready = {.fd = tsd_stream(v->disk), .events = POLLIN};
    struct timespec most = {.tv_nsec = NAP_NS};
    pthread_mutex_unlock(&v->lock);
    ppoll(&ready, 1, &most, NULL);
    pthread_mutex_lock(&v->lock);
}

/* The thread that takes answers. */
static void *serve(void *given) {
    vdisk *v = given;
    pthread_mutex_lock(&v->lock);
    while (!v->is_ending) {
        if (v->under_way == 0) {
            pthread_cond_wait(&v->more, &v->lock);
        } else {
            nap(v);
            take_some(v);
        }
    }
    pthread_mutex_unlock(&v->lock);
    return NULL;
}

/* --- opening --- */

static bool check_header(vdisk *v, const uint8_t *bytes, uint64_t size, vdisk_error *error) {
    v->size = number_at(bytes + 8) | (uint64_t)number_at(bytes + 12) << 32;
    if (size != 0 && size != v->size) {
        return fail(error, EINVAL, "the virtual disk at block %" PRIu32 " has %" PRIu64 " bytes, not %" PRIu64
                    ": leave the size out", v->root, v->size, size);
    }
    return true;
}

static bool check_blank(vdisk *v, const uint8_t *bytes, uint64_t size, vdisk_error *error) {
    uint32_t targets[TSD_MOST_TARGETS];
    size_t count;
    if (!well(v, tsd_list(v->disk, SESSION, v->root, &v->cap, 0, targets, &count), error)) {
        return false;
    }
    for (uint32_t at = 0; at < v->block_bytes; at++) {
        count += bytes[at] != 0;
    }
    if (count != 0) {
        return fail(error, EINVAL, "block %" PRIu32 " has something else than a virtual disk, and stays as it is",
                    v->root);
    }
    if (size == 0) {
        return fail(error, EINVAL, "block %" PRIu32 " has no virtual disk yet: give the size of the one that is to be "
                    "made", v->root);
    }
    if (size % v->block_bytes != 0) {
        return fail(error, EINVAL, "the size has to be a multiple of %" PRIu32 " bytes, not %" PRIu64, v->block_bytes,
                    size);
    }
    v->size = size;
    return true;
}

/* How many depths of tables there are, and room for each depth. */
static bool lay_out(vdisk *v, vdisk_error *error) {
    v->leaves = v->size / v->block_bytes + (v->size % v->block_bytes != 0);
    v->fan = v->block_bytes / NUMBER;
    v->root_fan = (v->block_bytes - HEADER) / NUMBER;
    for (uint64_t reached = v->root_fan; reached < v->leaves && v->depths < MOST_DEPTHS - 1; reached *= v->fan) {
        v->depths++;
    }
    uint64_t count = v->leaves;
    for (unsigned depth = v->depths; depth > 0; depth--) {
        count = (count + v->fan - 1) / v->fan;
        v->counts[depth] = count;
    }
    v->counts[0] = 1;
    for (unsigned depth = 0; depth <= v->depths; depth++) {
        if ((v->tables[depth] = calloc(v->counts[depth], sizeof *v->tables[depth])) == NULL) {
            return fail(error, ENOMEM, "there is no memory for a virtual disk of this size");
        }
    }
    return true;
}

static bool make_room(vdisk *v, size_t cache, vdisk_error *error) {
    v->slot_count = cache / v->block_bytes;
    v->slots = calloc(v->slot_count + 1, sizeof *v->slots);
    v->kept = malloc(v->slot_count * v->block_bytes + 1);
    v->bytes = malloc((size_t)RING * v->block_bytes);
    return (v->slots != NULL && v->kept != NULL && v->bytes != NULL) ||
           fail(error, ENOMEM, "there is no memory for the cache");
}

static bool opened(vdisk *v, uint64_t size, size_t cache, vdisk_error *error) {
    uint8_t bytes[TSD_MOST_BLOCK_BYTES];
    size_t length = 0;
    if (!tsd_hold(v->disk)) {
        return fail(error, ENOMEM, "there is no memory for requests");
    }
    if (!well(v, tsd_open_session(v->disk, SESSION), error) ||
        !well(v, tsd_read(v->disk, SESSION, v->root, &v->cap, bytes, sizeof bytes, &length), error)) {
        return false;
    }
    v->block_bytes = (uint32_t)length;
    bool is_there = memcmp(bytes, MAGIC, 8) == 0;
    if (!(is_there ? check_header : check_blank)(v, bytes, size, error) || !lay_out(v, error) ||
        !make_room(v, cache, error)) {
        return false;
    }
    if (is_there && (number_at(bytes + 16) != v->block_bytes || number_at(bytes + 20) != v->depths)) {
        return fail(error, EINVAL, "block %" PRIu32 " has a damaged header of a virtual disk", v->root);
    }
    struct table *root = new_table(v, 0, 0, v->root, error);
    if (root == NULL) {
        return false;
    }
    if (!is_there) {
        return name(v, root, 0, NULL, 0, NULL, 0, error);
    }
    for (uint32_t at = 0; at < v->root_fan; at++) {
        root->numbers[at] = number_at(bytes + HEADER + NUMBER * at);
    }
    return mend(v, root, v->root_fan, error);
}

static void free_all(vdisk *v) {
    for (unsigned depth = 0; depth < MOST_DEPTHS && v->tables[depth] != NULL; depth++) {
        for (uint64_t index = 0; index < v->counts[depth]; index++) {
            free(v->tables[depth][index]);
        }
        free(v->tables[depth]);
    }
    free(v->slots);
    free(v->kept);
    free(v->bytes);
    tsd_capability_wipe(&v->cap);
    pthread_mutex_destroy(&v->cache_lock);
    pthread_mutex_destroy(&v->lock);
    pthread_cond_destroy(&v->more);
    free(v);
}

vdisk *vdisk_open(tsd_disk *disk, uint32_t root, const tsd_capability *cap, uint64_t size, size_t cache,
                  vdisk_error *error) {
    vdisk *v = calloc(1, sizeof *v);
    error->number = 0;
    if (v == NULL) {
        fail(error, ENOMEM, "there is no memory for a virtual disk");
        return NULL;
    }
    v->disk = disk;
    v->cap = *cap;
    v->root = root;
    pthread_mutex_init(&v->cache_lock, NULL);
    pthread_mutex_init(&v->lock, NULL);
    pthread_cond_init(&v->more, NULL);
    if (!opened(v, size, cache, error)) {
        free_all(v);
        return NULL;
    }
    return v;
}

bool vdisk_start(vdisk *v, vdisk_error *error) {
    error->number = 0;
    int number = pthread_create(&v->thread, NULL, serve, v);
    v->is_started = number == 0;
    return v->is_started || fail(error, number, "no thread can be started: %s", strerror(number));
}

bool vdisk_close(vdisk *v, vdisk_error *error) {
    error->number = 0;
    pthread_mutex_lock(&v->lock);
    take_all(v);
    has_lost(v, error);
    v->is_ending = true;
    pthread_cond_signal(&v->more);
    pthread_mutex_unlock(&v->lock);
    if (v->is_started) {
        pthread_join(v->thread, NULL);
    }
    free_all(v);
    return error->number == 0;
}

uint64_t vdisk_size(const vdisk *v) {
    return v->size;
}

uint32_t vdisk_block_bytes(const vdisk *v) {
    return v->block_bytes;
}

/* --- the calls --- */

bool vdisk_read(vdisk *v, void *into, uint32_t count, uint64_t offset, vdisk_error *error) {
    uint32_t start = (uint32_t)(offset % v->block_bytes);
    error->number = 0;
    if (start + (uint64_t)count <= v->block_bytes && from_cache(v, offset / v->block_bytes, start, count, into) &&
        !atomic_load(&v->is_lost)) {
        return true;
    }
    return done(v, &(struct job){.kind = READ, .into = into, .count = count, .offset = offset}, error);
}

bool vdisk_write(vdisk *v, const void *from, uint32_t count, uint64_t offset, bool is_durable, vdisk_error *error) {
    struct job job = {.kind = WRITE, .is_durable = is_durable, .from = from, .count = count, .offset = offset};
    return done(v, &job, error);
}

bool vdisk_trim(vdisk *v, uint32_t count, uint64_t offset, vdisk_error *error) {
    return done(v, &(struct job){.kind = TRIM, .count = count, .offset = offset}, error);
}

bool vdisk_zero(vdisk *v, uint32_t count, uint64_t offset, vdisk_error *error) {
    return done(v, &(struct job){.kind = ZERO, .count = count, .offset = offset}, error);
}

bool vdisk_flush(vdisk *v, vdisk_error *error) {
    return done(v, &(struct job){.kind = FLUSH}, error);
}

bool vdisk_extents(vdisk *v, uint32_t count, uint64_t offset, vdisk_piece piece, void *given, vdisk_error *error) {
    struct job job = {.kind = EXTENTS, .count = count, .offset = offset, .piece = piece, .given = given};
    return done(v, &job, error);
}
