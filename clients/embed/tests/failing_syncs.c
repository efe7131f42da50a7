/* Linked with -Wl,--wrap=msync: the first syncs are done, as many as the variable SYNCS says, and each later one
   fails. */
#include <errno.h>
#include <stdlib.h>
#include <sys/mman.h>

int __real_msync(void *at, size_t bytes, int flags);
int __wrap_msync(void *at, size_t bytes, int flags);

int __wrap_msync(void *at, size_t bytes, int flags) {
    static int count;
    const char *told = getenv("SYNCS");
    if (told != NULL && ++count > atoi(told)) {
        errno = EIO;
        return -1;
    }
    return __real_msync(at, bytes, flags);
}
