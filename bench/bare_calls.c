// The system calls of a run over many requests of one kind, with nothing between them: what the requests cost at least.
//
//     bare_calls IMAGE KIND COUNT SENT
//
// takes all of its input, 65,536 bytes at a time, and then makes the calls of COUNT requests on the image, with SENT
// bytes sent for each: of `free` nothing else, of `read` a read of a sector, and of `write` two writes of a sector, a
// sync, one more write and one more sync.
#include <fcntl.h>
#include <stdio.h>
#include <stdlib.h>
#include <string.h>
#include <unistd.h>

enum { SECTOR = 512, PIECE = 65536, SECTORS = 64 };

static char piece[PIECE];

static void check(int held) {
    if (!held) {
        perror("bare_calls");
        exit(1);
    }
}

static void put(int image, long number) {
    check(pwrite(image, piece, SECTOR, SECTOR * (number % SECTORS)) == SECTOR);
}

int main(int count, char **words) {
    if (count != 5) {
        fprintf(stderr, "usage: bare_calls IMAGE KIND COUNT SENT\n");
        return 2;
    }
    const char *kind = words[2];
    long requests = atol(words[3]), sent = atol(words[4]);
    int image = open(words[1], O_RDWR);
    check(image >= 0 && 0 <= sent && sent <= PIECE);
    while (read(0, piece, PIECE) > 0) {
    }
    for (long i = 0; i < requests; i++) {
        if (!strcmp(kind, "read")) {
            check(pread(image, piece, SECTOR, SECTOR * (i % SECTORS)) == SECTOR);
        }
        if (!strcmp(kind, "write")) {
            put(image, i);
            put(image, i + 1);
            check(fdatasync(image) == 0);
            put(image, i + 2);
            check(fdatasync(image) == 0);
        }
        check(write(1, piece, sent) == sent);
    }
    return 0;
}
