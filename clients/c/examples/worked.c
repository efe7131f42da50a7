/* What clients/README.md shows: a disk that is read and written, by the program or by a hub.

     worked IMAGE CAPABILITY      the capability to write block 0 is the first word of the file CAPABILITY
     worked --hub SOCKET CAPABILITY */
#include "../tsd.h"

#include <stdio.h>
#include <string.h>

/* Prints why a call wasn't done; 1. */
static int told(const tsd_disk *disk, tsd_outcome outcome) {
    char words[2 * TSD_MOST_WORDS];
    tsd_refusal refusal = tsd_refusal_of(disk);
    fprintf(stderr, "worked: %s\n", outcome == TSD_REFUSED ? tsd_refusal_words(&refusal, words, sizeof words)
                                    : outcome == TSD_ENDED ? tsd_end_words(tsd_end_of(disk), words, sizeof words)
                                                           : "no memory to open a session");
    return 1;
}

/* Three reads that are under way at once. */
static tsd_outcome read_all(tsd_disk *disk, const uint32_t blocks[3]) {
    tsd_answer answer;
    tsd_outcome outcome = TSD_OK;
    for (int at = 0; at < 3 && outcome == TSD_OK; at++) {
        outcome = tsd_send(disk, &(tsd_request){.code = TSD_READ, .session = 1, .block = blocks[at]});
    }
    for (int at = 0; at < 3 && outcome == TSD_OK; at++) {
        outcome = tsd_take(disk, &answer);
        if (outcome == TSD_OK) {
            printf("%.*s\n", (int)answer.length, (const char *)answer.bytes);
        }
    }
    return outcome;
}

static int work(tsd_disk *disk, const tsd_capability *cap) {
    static const char *const texts[] = {"a", "type-safe", "disk"};
    uint32_t blocks[3], gone = 0, unused = 0;
    char words[128];
    tsd_outcome outcome = tsd_open_session(disk, 1);
    outcome = outcome != TSD_OK ? outcome : tsd_write(disk, 1, 0, cap, "hello", 5);
    outcome = outcome != TSD_OK ? outcome : tsd_alloc(disk, 1, 0, cap, NULL, 3, blocks);
    for (int at = 0; at < 3 && outcome == TSD_OK; at++) {
        outcome = tsd_write(disk, 1, blocks[at], NULL, texts[at], strlen(texts[at]));
    }
    outcome = outcome != TSD_OK ? outcome : read_all(disk, blocks);
    if (outcome != TSD_OK) {
        return told(disk, outcome);
    }
    if (tsd_write(disk, 1, 0, NULL, "", 0) == TSD_REFUSED) {
        tsd_refusal refusal = tsd_refusal_of(disk);
        printf("%s\n", tsd_refusal_words(&refusal, words, sizeof words));
    }
    outcome = tsd_delete(disk, 1, 0, cap, blocks[0], &gone);
    outcome = outcome != TSD_OK ? outcome : tsd_get_free(disk, &unused);
    if (outcome != TSD_OK) {
        return told(disk, outcome);
    }
    printf("%u gone\n%u blocks are free\n", gone, unused);
    return 0;
}

int main(int count, char **words) {
    bool is_hub = count == 4 && strcmp(words[1], "--hub") == 0;
    tsd_capability cap;
    tsd_end end;
    char text[2 * TSD_MOST_WORDS];
    if (!is_hub && count != 3) {
        fprintf(stderr, "usage: worked [--hub] IMAGE CAPABILITY\n");
        return 2;
    }
    if (!tsd_capability_from_file(&cap, words[count - 1])) {
        fprintf(stderr, "worked: %s gives no capability\n", words[count - 1]);
        return 1;
    }
    tsd_disk *disk = is_hub ? tsd_connect(words[2], NULL) : tsd_open(words[1], NULL);
    if (disk == NULL) {
        perror("worked");
        return 1;
    }
    int status = work(disk, &cap);
    tsd_capability_wipe(&cap);
    if (!tsd_close(disk, &end) && status == 0) {
        fprintf(stderr, "worked: %s\n", tsd_end_words(&end, text, sizeof text));
        status = 1;
    }
    return status;
}
