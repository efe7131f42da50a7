/* Loaded before a program (LD_PRELOAD): notes its calls on one file, the image, and on standard output, in order and
 * with their bytes; and makes chosen calls fail, be short, or kill the process. Made by `cc -shared -fPIC -O1`.
 *
 *   RECORDER_IMAGE   the image's path: calls on a descriptor of the same inode are noted
 *   RECORDER_LOG     the file to which the notes are appended; none are written where it isn't set
 *   RECORDER_FAULTS  parted by commas, each KIND:NUMBER:ACTION; the first that fits a call acts
 *
 * KIND is read, write, sync, truncate (calls on the image), put (standard output), input (standard input), tell
 * (standard error), or image (any call on the image). NUMBER counts the calls of that kind from 1; with a + behind it
 * all from there on are meant. ACTION is
 *
 *   an errno's name or number   the call fails with it and does nothing
 *   ERRNO@BYTES                 so many bytes of it are done, and then it fails
 *   short=BYTES                 only so many bytes are done, and the call answers so many
 *   KILL, KILL@BYTES            the process is killed before the call, or when so many bytes of it are done
 *
 * A note is 32 bytes, numbers with the lowest byte first: kind (a byte: R W S T P I E), three zeros, errno (4 bytes, 0
 * where the call answered), offset (8), answer (8), length that was asked for (8); and behind those of W, P and E the
 * bytes. It is written once the call has answered. Each call goes straight to the system, past libc's own function.
 */
#define _GNU_SOURCE
#include <errno.h>
#include <fcntl.h>
#include <signal.h>
#include <stdint.h>
#include <stdlib.h>
#include <string.h>
#include <sys/stat.h>
#include <sys/syscall.h>
#include <sys/types.h>
#include <sys/uio.h>
#include <unistd.h>

enum { MOST_FAULTS = 32, LOG_FROM = 200 };

struct fault {
    char kind;          /* as in a note, or A for any call on the image */
    unsigned long from;
    int goes_on;        /* from that number on, not once */
    int error;          /* 0 for a short call, -1 for a kill */
    long done;          /* how many bytes are done all the same, or -1 for none named */
};

struct note {
    char kind;
    char zeros[3];
    int32_t error;
    int64_t offset;
    int64_t answer;
    uint64_t length;
};

static struct fault faults[MOST_FAULTS];
static int fault_count;
static unsigned long calls[256];
static int log_file = -1;
static const char *image_path;

static int error_of(const char *name, size_t length) {
    static const struct { const char *name; int error; } known[] = {
        {"EIO", EIO}, {"ENOSPC", ENOSPC}, {"EINTR", EINTR}, {"EPIPE", EPIPE}, {"EAGAIN", EAGAIN}, {"EFBIG", EFBIG},
        {"EDQUOT", EDQUOT}, {"EROFS", EROFS}, {"EACCES", EACCES}, {"EBADF", EBADF}, {"EINVAL", EINVAL}, {"KILL", -1},
    };
    for (size_t i = 0; i < sizeof known / sizeof *known; i++)
        if (strlen(known[i].name) == length && memcmp(known[i].name, name, length) == 0)
            return known[i].error;
    return atoi(name);
}

static char kind_of(const char *word) {
    static const struct { const char *name; char kind; } known[] = {
        {"read:", 'R'}, {"write:", 'W'}, {"sync:", 'S'}, {"truncate:", 'T'}, {"put:", 'P'}, {"input:", 'I'},
        {"tell:", 'E'}, {"image:", 'A'},
    };
    for (size_t i = 0; i < sizeof known / sizeof *known; i++)
        if (strncmp(word, known[i].name, strlen(known[i].name)) == 0)
            return known[i].kind;
    return 0;
}

/* One KIND:NUMBER:ACTION; a word that is none ends the process, so that no test passes for want of its fault. */
static struct fault fault_of(const char *word) {
    struct fault fault = {kind_of(word), 0, 0, 0, -1};
    const char *number = strchr(word, ':');
    char *end = NULL;
    if (fault.kind != 0)
        fault.from = strtoul(number + 1, &end, 10);
    if (fault.from == 0 || end == NULL)
        _exit(120);
    fault.goes_on = *end == '+';
    end += fault.goes_on;
    if (*end++ != ':')
        _exit(120);
    if (strncmp(end, "short=", 6) == 0) {
        fault.done = atol(end + 6);
        return fault;
    }
    size_t length = strcspn(end, "@,");
    fault.error = error_of(end, length);
    if (end[length] == '@')
        fault.done = atol(end + length + 1);
    if (fault.error == 0)
        _exit(120);
    return fault;
}

__attribute__((constructor)) static void start(void) {
    const char *log = getenv("RECORDER_LOG");
    const char *word = getenv("RECORDER_FAULTS");
    image_path = getenv("RECORDER_IMAGE");
    if (log != NULL && *log != 0) {
        int file = open(log, O_WRONLY | O_CREAT | O_APPEND | O_CLOEXEC, 0600);
        log_file = file < 0 ? -1 : fcntl(file, F_DUPFD_CLOEXEC, LOG_FROM);
        if (log_file < 0)
            _exit(121);
        close(file);
    }
    while (word != NULL && *word != 0) {
        if (fault_count == MOST_FAULTS)
            _exit(120);
        faults[fault_count++] = fault_of(word);
        word = strchr(word, ',');
        word = word == NULL ? NULL : word + 1;
    }
}

static int is_image(int file) {
    struct stat image, other;
    if (image_path == NULL || file <= STDERR_FILENO || file == log_file)
        return 0;
    return stat(image_path, &image) == 0 && fstat(file, &other) == 0 && image.st_dev == other.st_dev &&
           image.st_ino == other.st_ino;
}

static void write_note(char kind, long offset, const struct iovec *pieces, int count, size_t length, long answer) {
    struct note note = {kind, {0}, answer < 0 ? errno : 0, offset, answer, length};
    struct iovec all[17] = {{&note, sizeof note}};
    int kept = errno, keeps = kind == 'W' || kind == 'P' || kind == 'E';
    if (log_file < 0)
        return;
    if (count > 16)
        _exit(122);
    for (int i = 0; keeps && i < count; i++)
        all[1 + i] = pieces[i];
    size_t wanted = sizeof note + (keeps ? length : 0);
    if (syscall(SYS_writev, log_file, all, keeps ? 1 + count : 1) != (long)wanted)
        _exit(123);
    errno = kept;
}

/* The fault that acts at this call, or NULL. */
static const struct fault *next_fault(char kind) {
    int on_image = strchr("RWST", kind) != NULL;
    unsigned long number = ++calls[(unsigned char)kind];
    unsigned long of_image = calls['A'] += on_image;
    for (int i = 0; i < fault_count; i++) {
        const struct fault *fault = &faults[i];
        unsigned long at = fault->kind == kind ? number : fault->kind == 'A' && on_image ? of_image : 0;
        if (at != 0 && (at == fault->from || (fault->goes_on && at > fault->from)))
            return fault;
    }
    return NULL;
}

/* The pieces cut to so many bytes in all; answers how many pieces are left. */
static int cut(const struct iovec *pieces, int count, size_t length, struct iovec *into) {
    int kept = 0;
    for (; kept < count && length > 0; kept++) {
        into[kept] = pieces[kept];
        if (into[kept].iov_len > length)
            into[kept].iov_len = length;
        length -= into[kept].iov_len;
    }
    return kept;
}

static long plain(long number, int file, long offset, const struct iovec *pieces, int count) {
    if (number == SYS_preadv || number == SYS_pwritev)
        return syscall(number, file, pieces, count, offset, 0L);
    if (number == SYS_readv || number == SYS_writev)
        return syscall(number, file, pieces, count);
    return number == SYS_ftruncate ? syscall(number, file, offset) : syscall(number, file);
}

/* One call, as it is or as a fault has it, and its note. */
static long call(char kind, long number, int file, long offset, const struct iovec *pieces, int count) {
    size_t length = 0;
    struct iovec front[16];
    for (int i = 0; i < count; i++)
        length += pieces[i].iov_len;
    const struct fault *fault = next_fault(kind);
    long answer;
    if (fault == NULL) {
        answer = plain(number, file, offset, pieces, count);
    } else {
        if (count > 16)
            _exit(122);
        answer = 0;
        int kept = cut(pieces, count, fault->done < 0 ? 0 : (size_t)fault->done, front);
        if (kept > 0)
            answer = plain(number, file, offset, front, kept);
        if (fault->error < 0)
            kill(getpid(), SIGKILL);
        if (fault->error > 0) {
            answer = -1;
            errno = fault->error;
        }
    }
    write_note(kind, offset, pieces, count, length, answer);
    return answer;
}

static long here(int file) {
    return syscall(SYS_lseek, file, 0L, SEEK_CUR);
}

static ssize_t write_pieces(int file, const struct iovec *pieces, int count) {
    if (file == STDOUT_FILENO || file == STDERR_FILENO)
        return call(file == STDOUT_FILENO ? 'P' : 'E', SYS_writev, file, 0, pieces, count);
    if (is_image(file))
        return call('W', SYS_writev, file, here(file), pieces, count);
    return syscall(SYS_writev, file, pieces, count);
}

static ssize_t read_pieces(int file, const struct iovec *pieces, int count) {
    if (file == STDIN_FILENO)
        return call('I', SYS_readv, file, 0, pieces, count);
    if (is_image(file))
        return call('R', SYS_readv, file, here(file), pieces, count);
    return syscall(SYS_readv, file, pieces, count);
}

static ssize_t at_offset(char kind, long number, int file, const struct iovec *pieces, int count, off_t offset) {
    if (is_image(file))
        return call(kind, number, file, offset, pieces, count);
    return plain(number, file, offset, pieces, count);
}

ssize_t write(int file, const void *from, size_t length) {
    struct iovec piece = {(void *)from, length};
    return write_pieces(file, &piece, 1);
}

ssize_t writev(int file, const struct iovec *pieces, int count) {
    return write_pieces(file, pieces, count);
}

ssize_t read(int file, void *into, size_t length) {
    struct iovec piece = {into, length};
    return read_pieces(file, &piece, 1);
}

ssize_t readv(int file, const struct iovec *pieces, int count) {
    return read_pieces(file, pieces, count);
}

ssize_t pwrite64(int file, const void *from, size_t length, off_t offset) {
    struct iovec piece = {(void *)from, length};
    return at_offset('W', SYS_pwritev, file, &piece, 1, offset);
}

ssize_t pwritev64(int file, const struct iovec *pieces, int count, off_t offset) {
    return at_offset('W', SYS_pwritev, file, pieces, count, offset);
}

ssize_t pread64(int file, void *into, size_t length, off_t offset) {
    struct iovec piece = {into, length};
    return at_offset('R', SYS_preadv, file, &piece, 1, offset);
}

ssize_t preadv64(int file, const struct iovec *pieces, int count, off_t offset) {
    return at_offset('R', SYS_preadv, file, pieces, count, offset);
}

int ftruncate64(int file, off_t length) {
    return is_image(file) ? call('T', SYS_ftruncate, file, length, NULL, 0) : syscall(SYS_ftruncate, file, length);
}

int fsync(int file) {
    return is_image(file) ? call('S', SYS_fsync, file, 0, NULL, 0) : syscall(SYS_fsync, file);
}

int fdatasync(int file) {
    return is_image(file) ? call('S', SYS_fdatasync, file, 0, NULL, 0) : syscall(SYS_fdatasync, file);
}

#define ALSO(name) __attribute__((alias(name)))
ssize_t pwrite(int, const void *, size_t, off_t) ALSO("pwrite64");
ssize_t pwritev(int, const struct iovec *, int, off_t) ALSO("pwritev64");
ssize_t pread(int, void *, size_t, off_t) ALSO("pread64");
ssize_t preadv(int, const struct iovec *, int, off_t) ALSO("preadv64");
int ftruncate(int, off_t) ALSO("ftruncate64");
