/* An nbdkit plugin: a virtual disk in a disk of tsd, as a network block device; the quicker one of two, with the words
   of tsd_disk.py beside it, but for `python`. docs/VIRTUAL_DISKS.md has a tour.

       cc -O2 -shared -fPIC -I clients/c -o tsd_disk.so contrib/nbdkit/tsd_disk.c contrib/nbdkit/virtual_disk.c \
           clients/c/tsd.c -lpthread
       nbdkit -U disk.sock ./tsd_disk.so hub=tsd.sock root=1 cap=owner.cap size=64M */
#define NBDKIT_API_VERSION 2
#include <nbdkit-plugin.h>

#include <errno.h>
#include <stdlib.h>
#include <string.h>

#include "virtual_disk.h"

#define THREAD_MODEL NBDKIT_THREAD_MODEL_PARALLEL
#define REQUEST_MOST (32 << 20)

static char *hub, *image, *cap_file;
static const char *place;
static uint32_t root;
static int64_t size, cache = 32 << 20;
static tsd_disk *disk;
static vdisk *opened;

static int set_path(char **path, const char *value) {
    free(*path);
    *path = nbdkit_absolute_path(value);
    return *path != NULL ? 0 : -1;
}

static int disk_config(const char *key, const char *value) {
    if (strcmp(key, "hub") == 0) {
        return set_path(&hub, value);
    }
    if (strcmp(key, "image") == 0) {
        return set_path(&image, value);
    }
    if (strcmp(key, "cap") == 0) {
        return set_path(&cap_file, value);
    }
    if (strcmp(key, "root") == 0) {
        return nbdkit_parse_uint32_t("root", value, &root);
    }
    if (strcmp(key, "place") == 0) {
        place = value;
        return 0;
    }
    if (strcmp(key, "size") == 0 || strcmp(key, "cache") == 0) {
        int64_t number = nbdkit_parse_size(value);
        *(key[0] == 's' ? &size : &cache) = number;
        return number < 0 ? -1 : 0;
    }
    nbdkit_error("there is no word %s=; there are hub, image, cap, root, size, cache, place", key);
    return -1;
}

static int disk_config_complete(void) {
    if ((hub == NULL) == (image == NULL)) {
        nbdkit_error("give hub=SOCKET or image=FILE, and not both");
        return -1;
    }
    if (cap_file == NULL) {
        nbdkit_error("give cap=FILE, the file with the capability of the root block");
        return -1;
    }
    return 0;
}

static int told(const char *words) {
    nbdkit_error("the virtual disk at %s: %s", hub != NULL ? hub : image, words);
    return -1;
}

static void disk_cleanup(void) {
    vdisk_error error;
    if (opened != NULL && !vdisk_close(opened, &error)) {
        told(error.words);
    }
    opened = NULL;
    if (disk != NULL) {
        tsd_close(disk, NULL);
        disk = NULL;
    }
}

/* Opens the disk, and the virtual disk in it. */
static int open_all(void) {
    tsd_capability cap;
    tsd_options options = {.place = place};
    vdisk_error error = {0};
    if (!tsd_capability_from_file(&cap, cap_file)) {
        nbdkit_error("%s: %s", cap_file, errno != 0 ? strerror(errno) : "a capability has 32 hexadecimal digits");
        return -1;
    }
    disk = hub != NULL ? tsd_connect(hub, &options) : tsd_open(image, &options);
    if (disk == NULL) {
        tsd_capability_wipe(&cap);
        return told(strerror(errno));
    }
    opened = vdisk_open(disk, root, &cap, (uint64_t)size, (size_t)cache, &error);
    tsd_capability_wipe(&cap);
    return opened != NULL ? 0 : told(error.words);
}

/* Tells before anything is served what is wrong. What is opened here wouldn't outlive this server's fork. */
static int disk_get_ready(void) {
    int status = open_all();
    disk_cleanup();
    return status;
}

static int disk_after_fork(void) {
    vdisk_error error = {0};
    if (open_all() != 0) {
        return -1;
    }
    return vdisk_start(opened, &error) ? 0 : told(error.words);
}

static void *disk_open(int readonly) {
    (void)readonly;
    return opened;
}

/* An error is told as the client knows it, and in a line of this server. */
static int ended(bool is_well, const vdisk_error *error) {
    if (is_well) {
        return 0;
    }
    nbdkit_error("%s", error->words);
    nbdkit_set_error(error->number);
    return -1;
}

/* A client has gone, which may not have flushed. */
static void disk_close(void *handle) {
    vdisk_error error;
    ended(vdisk_flush(handle, &error), &error);
}

static int64_t disk_get_size(void *handle) {
    return (int64_t)vdisk_size(handle);
}

static int disk_block_size(void *handle, uint32_t *least, uint32_t *best, uint32_t *most) {
    *least = 1;
    *best = vdisk_block_bytes(handle);
    *most = REQUEST_MOST;
    return 0;
}

static int yes(void *handle) {
    (void)handle;
    return 1;
}

static int no(void *handle) {
    (void)handle;
    return 0;
}

/* A write with FUA waits for its own answer alone. */
static int disk_can_fua(void *handle) {
    (void)handle;
    return NBDKIT_FUA_NATIVE;
}

static int disk_pread(void *handle, void *into, uint32_t count, uint64_t offset, uint32_t flags) {
    vdisk_error error;
    (void)flags;
    return ended(vdisk_read(handle, into, count, offset, &error), &error);
}

static int disk_pwrite(void *handle, const void *from, uint32_t count, uint64_t offset, uint32_t flags) {
    vdisk_error error;
    return ended(vdisk_write(handle, from, count, offset, (flags & NBDKIT_FLAG_FUA) != 0, &error), &error);
}

static int disk_trim(void *handle, uint32_t count, uint64_t offset, uint32_t flags) {
    vdisk_error error;
    (void)flags;
    return ended(vdisk_trim(handle, count, offset, &error), &error);
}

static int disk_zero(void *handle, uint32_t count, uint64_t offset, uint32_t flags) {
    vdisk_error error;
    (void)flags;
    return ended(vdisk_zero(handle, count, offset, &error), &error);
}

static int disk_flush(void *handle, uint32_t flags) {
    vdisk_error error;
    (void)flags;
    return ended(vdisk_flush(handle, &error), &error);
}

static bool add_piece(void *extents, uint64_t offset, uint64_t length, bool has_blocks) {
    return nbdkit_add_extent(extents, offset, length, has_blocks ? 0 : NBDKIT_EXTENT_HOLE | NBDKIT_EXTENT_ZERO) == 0;
}

static int disk_extents(void *handle, uint32_t count, uint64_t offset, uint32_t flags,
                        struct nbdkit_extents *extents) {
    vdisk_error error;
    (void)flags;
    return ended(vdisk_extents(handle, count, offset, add_piece, extents, &error), &error);
}

static struct nbdkit_plugin plugin = {
    .name = "tsd-disk",
    .longname = "virtual disks of tsd",
    .config = disk_config,
    .config_complete = disk_config_complete,
    .config_help = "hub=SOCKET or image=FILE, cap=FILE, root=N, size=BYTES, cache=BYTES, place=PLACE",
    .get_ready = disk_get_ready,
    .after_fork = disk_after_fork,
    .cleanup = disk_cleanup,
    .open = disk_open,
    .close = disk_close,
    .get_size = disk_get_size,
    .block_size = disk_block_size,
    .can_flush = yes,
    .can_fua = disk_can_fua,
    .can_trim = yes,
    .can_zero = yes,
    .can_multi_conn = yes,
    .can_extents = yes,
    .is_rotational = no,
    .pread = disk_pread,
    .pwrite = disk_pwrite,
    .trim = disk_trim,
    .zero = disk_zero,
    .flush = disk_flush,
    .extents = disk_extents,
};

NBDKIT_REGISTER_PLUGIN(plugin)
