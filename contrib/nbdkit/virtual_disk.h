/* A virtual disk: a row of bytes that is kept under one primary block of a disk, block by block as it is written, in
   the form of docs/VIRTUAL_DISKS.md, as python/tsd/virtual_disk.py has it too. Any number of threads may use one; only
   one may be open at a root at a time. It needs the client in clients/c. */
#ifndef VIRTUAL_DISK_H
#define VIRTUAL_DISK_H

#include <stdbool.h>
#include <stdint.h>

#include "tsd.h"

/* What went wrong: the system's number, 0 for nothing, and a line that says what to do. */
typedef struct {
    int number;
    char words[512];
} vdisk_error;

typedef struct vdisk vdisk;

/* Is told of a piece of the bytes, in order: where it begins, how long it is, and whether it has blocks. False ends
   that. */
typedef bool (*vdisk_piece)(void *given, uint64_t offset, uint64_t length, bool has_blocks);

/* The virtual disk at a primary block, by its capability to write; by the one to read it can't be written. With a size
   above 0 it is made, where the root is all zeros and points to nothing; one that is there has to be of that size. So
   many bytes of what was read or written are kept in memory. NULL with an error. The disk is its alone from now on. */
vdisk *vdisk_open(tsd_disk *disk, uint32_t root, const tsd_capability *cap, uint64_t size, size_t cache,
                  vdisk_error *error);
/* Starts the thread that serves it. False with an error. */
bool vdisk_start(vdisk *virtual, vdisk_error *error);
/* Waits for what is under way, ends that, and frees it; no call may be under way. False with an error where a write
   that was answered isn't on the disk. The disk is the caller's again. */
bool vdisk_close(vdisk *virtual, vdisk_error *error);

uint64_t vdisk_size(const vdisk *virtual);
uint32_t vdisk_block_bytes(const vdisk *virtual);

/* Each is done when it returns; false with an error. Of a write or a trim over several blocks some may be carried out
   then, each whole. The bytes are within the size.

   What a write has written is on the disk when it returns where it is_durable, and else when a later flush does. Where
   it can't be written after all, each later call fails. */
bool vdisk_read(vdisk *virtual, void *into, uint32_t count, uint64_t offset, vdisk_error *error);
bool vdisk_write(vdisk *virtual, const void *from, uint32_t count, uint64_t offset, bool is_durable,
                 vdisk_error *error);
/* Gives back the blocks that lie whole in these bytes, which read as zeros then; the others stay. What it and
   vdisk_zero did is on the disk when they return. */
bool vdisk_trim(vdisk *virtual, uint32_t count, uint64_t offset, vdisk_error *error);
/* Sets bytes to zero; blocks that lie whole in them are given back. */
bool vdisk_zero(vdisk *virtual, uint32_t count, uint64_t offset, vdisk_error *error);
/* Waits until all writes that returned before are on the disk. */
bool vdisk_flush(vdisk *virtual, vdisk_error *error);
bool vdisk_extents(vdisk *virtual, uint32_t count, uint64_t offset, vdisk_piece piece, void *given,
                   vdisk_error *error);

#endif
