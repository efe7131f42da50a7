/* Uses a capability, and waits for a byte; wipes it, and waits again. A test looks meanwhile for its bytes in this
   process's memory.

     forgets IMAGE CAPABILITY */
#include "../tsd.h"

#include <stdio.h>

int main(int count, char **words) {
    tsd_capability cap;
    uint8_t ones[512] = {1};
    if (count != 3 || !tsd_capability_from_file(&cap, words[2])) {
        return 2;
    }
    tsd_disk *disk = tsd_open(words[1], NULL);
    bool is_done = disk != NULL && tsd_open_session(disk, 1) == TSD_OK;
    is_done = is_done && tsd_write(disk, 1, 0, &cap, ones, sizeof ones) == TSD_OK;
    is_done = is_done && tsd_set_capabilities(disk, 1, 0, &cap, &cap, &cap) == TSD_OK;
    is_done = is_done && tsd_read(disk, 1, 0, &cap, ones, sizeof ones, NULL) == TSD_OK;
    printf("%s\n", is_done ? "held" : "failed");
    fflush(stdout);
    (void)getchar();
    tsd_capability_wipe(&cap);
    printf("dropped\n");
    fflush(stdout);
    (void)getchar();
    return tsd_close(disk, NULL) && is_done ? 0 : 1;
}
