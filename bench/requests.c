// Requests of several clients, each a process, at a hub's socket or at a program of their own on two pipes.
//
//     requests KIND CAP CLIENTS UNDER_WAY SECONDS socket PATH
//     requests KIND CAP CLIENTS UNDER_WAY SECONDS pipe WORD...
//     requests set - CLIENTS UNDER_WAY SECONDS socket PATH
//     requests append - CLIENTS - SECONDS file PATH
//
// KIND is `read`, or `write` of a byte; CAP has 32 hexadecimal digits for block 0. Each client keeps so many requests
// under way. `set` has the same clients set a key of a byte each at redis's socket. `append` is no client: it appends
// what so many clients would have sent at once, and syncs, over and over. Prints how many requests a second were
// answered.
#include <errno.h>
#include <fcntl.h>
#include <stdbool.h>
#include <stdio.h>
#include <stdlib.h>
#include <string.h>
#include <sys/mman.h>
#include <sys/socket.h>
#include <sys/un.h>
#include <sys/wait.h>
#include <time.h>
#include <unistd.h>

enum { SHOWN = 27, LONGEST = 64, MOST_CLIENTS = 1024, ROOM = 1 << 17, BEGIN = 1 << 20, RECORD = 64 };

struct shared {
    int ready;
    long counts[MOST_CLIENTS];
};

static const unsigned char open_session[] = {5, 0, 1, 1, 0, 0, 0}, close_session[] = {5, 0, 2, 1, 0, 0, 0};
static const char set_done[] = "+OK\r\n";
static unsigned char request[LONGEST], replies[ROOM];
static size_t request_length, begin, end;
static bool is_set;
static int in, out;

static void fail(const char *what) {
    perror(what);
    _exit(1);
}

static double now(void) {
    struct timespec time;
    clock_gettime(CLOCK_MONOTONIC, &time);
    return (double)time.tv_sec + (double)time.tv_nsec / 1e9;
}

static void put(const unsigned char *bytes, size_t length) {
    while (length > 0) {
        ssize_t count = write(out, bytes, length);
        if (count <= 0) fail("write");
        bytes += count;
        length -= (size_t)count;
    }
}

static void put_requests(long count) {
    unsigned char text[LONGEST * 64];
    while (count > 0) {
        long part = count < 64 ? count : 64;
        for (long i = 0; i < part; i++) memcpy(text + (size_t)i * request_length, request, request_length);
        put(text, (size_t)part * request_length);
        count -= part;
    }
}

static void refused(void) {
    fprintf(stderr, "refused: %d %d\n", replies[begin + 2], replies[begin + 3]);
    _exit(1);
}

// The length of the first reply, or 0 where it isn't there as a whole.
static size_t reply_length(void) {
    if (is_set) {
        if (end - begin < sizeof set_done - 1) return 0;
        if (memcmp(replies + begin, set_done, sizeof set_done - 1) != 0) refused();
        return sizeof set_done - 1;
    }
    if (end - begin < 2) return 0;
    size_t length = 2 + (size_t)replies[begin] + 256 * (size_t)replies[begin + 1];
    if (end - begin < length) return 0;
    if (replies[begin + 2] >= 7) refused();
    return length;
}

// The replies that are there, but at least one.
static long take_replies(void) {
    for (;;) {
        long count = 0;
        for (size_t length; (length = reply_length()) > 0; count++) begin += length;
        if (count > 0) return count;
        memmove(replies, replies + begin, end - begin);
        end -= begin;
        begin = 0;
        ssize_t come = read(in, replies + end, sizeof replies - end);
        if (come <= 0) fail("read");
        end += (size_t)come;
    }
}

static void make_request(bool is_write, const char *cap) {
    static const unsigned char head[] = {0, 0, 3, 1, 0, 0, 0, 0, 0, 0, 0, 1};
    memcpy(request, head, sizeof head);
    for (size_t i = 0; i < 16; i++)
        if (sscanf(cap + 2 * i, "%2hhx", request + sizeof head + i) != 1) fail("the capability");
    request_length = 2 + SHOWN - 1 + (is_write ? 1 : 0);
    if (is_write) request[2] = 4;
    request[0] = (unsigned char)(request_length - 2);
}

static void make_set(long client) {
    static const char text[] = "*3\r\n$3\r\nSET\r\n$3\r\n%03ld\r\n$1\r\nx\r\n";
    int length = snprintf((char *)request, sizeof request, text, client % 1000);
    request_length = (size_t)length;
}

static void join(bool is_socket, char **words) {
    if (is_socket) {
        struct sockaddr_un address = {.sun_family = AF_UNIX};
        strncpy(address.sun_path, words[0], sizeof address.sun_path - 1);
        in = out = socket(AF_UNIX, SOCK_STREAM, 0);
        if (connect(in, (struct sockaddr *)&address, sizeof address) != 0) fail("connect");
        return;
    }
    int to[2], from[2];
    if (pipe(to) != 0 || pipe(from) != 0) fail("pipe");
    if (fork() == 0) {
        dup2(to[0], 0);
        dup2(from[1], 1);
        for (int each = 0; each < 2; each++) {
            close(to[each]);
            close(from[each]);
        }
        execvp(words[0], words);
        fail(words[0]);
    }
    close(to[0]);
    close(from[1]);
    in = from[0];
    out = to[1];
}

static void be_client(struct shared *shared, long *count, long under_way, double seconds) {
    if (!is_set) {
        put(open_session, sizeof open_session);
        take_replies();
    }
    __atomic_add_fetch(&shared->ready, 1, __ATOMIC_SEQ_CST);
    while (__atomic_load_n(&shared->ready, __ATOMIC_SEQ_CST) < BEGIN) usleep(100);
    double until = now() + seconds;
    put_requests(under_way);
    while (now() < until) {
        long come = take_replies();
        *count += come;
        put_requests(come);
    }
    for (long left = under_way; left > 0;) left -= take_replies();
    if (!is_set) {
        put(close_session, sizeof close_session);
        take_replies();
    }
    _exit(0);
}

static double append(const char *path, long clients, double seconds) {
    char text[RECORD * MOST_CLIENTS] = {0};
    int file = open(path, O_WRONLY | O_CREAT | O_APPEND, 0600);
    if (file < 0) fail(path);
    long count = 0;
    for (double until = now() + seconds; now() < until; count += clients)
        if (write(file, text, (size_t)(RECORD * clients)) < 0 || fdatasync(file) != 0) fail(path);
    return (double)count / seconds;
}

int main(int words_count, char **words) {
    if (words_count < 8) return 2;
    long clients = atol(words[3]), under_way = atol(words[4]);
    double seconds = atof(words[5]);
    if (clients < 1 || clients > MOST_CLIENTS) return 2;
    if (strcmp(words[1], "append") == 0) {
        printf("%.0f\n", append(words[7], clients, seconds));
        return 0;
    }
    is_set = strcmp(words[1], "set") == 0;
    if (!is_set) make_request(strcmp(words[1], "write") == 0, words[2]);
    struct shared *shared = mmap(NULL, sizeof *shared, PROT_READ | PROT_WRITE, MAP_SHARED | MAP_ANONYMOUS, -1, 0);
    if (shared == MAP_FAILED) fail("mmap");
    for (long each = 0; each < clients; each++)
        if (fork() == 0) {
            if (is_set) make_set(each);
            join(strcmp(words[6], "socket") == 0, words + 7);
            be_client(shared, &shared->counts[each], under_way, seconds);
        }
    while (__atomic_load_n(&shared->ready, __ATOMIC_SEQ_CST) < clients) {
        if (waitpid(-1, NULL, WNOHANG) > 0) return 1;
        usleep(1000);
    }
    __atomic_store_n(&shared->ready, BEGIN, __ATOMIC_SEQ_CST);
    bool is_good = true;
    for (int status; wait(&status) > 0;) is_good &= status == 0;
    double sum = 0;
    for (long each = 0; each < clients; each++) sum += (double)shared->counts[each];
    printf("%.0f\n", sum / seconds);
    return is_good ? 0 : 1;
}
