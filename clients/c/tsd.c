/* The client of tsd.h: a link to a program or a hub, requests as the bodies of frames, and replies from them. */
#define _POSIX_C_SOURCE 200809L
#include "tsd.h"

#include <errno.h>
#include <fcntl.h>
#include <poll.h>
#include <signal.h>
#include <spawn.h>
#include <stdio.h>
#include <stdlib.h>
#include <string.h>
#include <sys/socket.h>
#include <sys/un.h>
#include <sys/wait.h>
#include <time.h>
#include <unistd.h>

enum {
    LENGTH_BYTES = 2,
    MOST_BODY = 0xffff,
    WRITE_HEAD = 26, /* of a write that shows a capability */
    MOST_DATA = TSD_MOST_BLOCK_BYTES + 1, /* one byte more than any disk takes: of longer data so much is sent */
    MOST_REQUEST = LENGTH_BYTES + WRITE_HEAD + MOST_DATA,
    MOST_CAME = TSD_MOST_UNDER_WAY * (LENGTH_BYTES + 1 + TSD_MOST_BLOCK_BYTES) + LENGTH_BYTES + MOST_BODY,
    MOST_FILE = 4096,
    HUB = 255, /* with this byte begins what is asked of a hub itself, and what it tells */
    HUB_FULL = 1,
    HUB_DISK_ENDED = 2,
    HUB_STOPPED = 3,
    HUB_GREETING = 4,
    HUB_IDLE = 6,
    LONGEST_NAP_MS = 100,
    NAP_NS = 2000000,
    WORDS_WAIT_MS = 200
};

/* The code of a reply. */
enum { DONE = 1, BYTES, BLOCKS, FREE, GONE, TARGETS, NO_MEMORY, REFUSED, GREETING = 255 };

struct tsd_disk {
    int stream, words;                  /* to the other side, and the program's standard error, or -1 */
    pid_t child;                        /* the program, or -1 */
    unsigned limit_ms;
    int64_t since;                      /* when a reply came last, or the call began that waits for one */
    tsd_code asked[TSD_MOST_UNDER_WAY]; /* a ring of the requests under way */
    unsigned first, under_way;
    tsd_refusal refusal;
    tsd_end end;
    uint8_t *held;                      /* room for frames that are held back, or NULL where none are */
    size_t held_length;
    size_t start, filled;               /* where what came and isn't taken begins and ends */
    uint8_t came[MOST_CAME];
};

extern char **environ;

/* --- capabilities --- */

/* Sets memory to zeros, by a call through a volatile pointer, which the compiler doesn't leave out. */
static void wipe(void *memory, size_t length) {
    static void *(*const volatile set)(void *, int, size_t) = memset;
    set(memory, 0, length);
}

void tsd_capability_wipe(tsd_capability *cap) {
    wipe(cap, sizeof *cap);
}

bool tsd_capability_equal(const tsd_capability *one, const tsd_capability *other) {
    volatile uint8_t differing = 0;
    for (size_t at = 0; at < TSD_CAPABILITY_BYTES; at++) {
        differing |= one->secret[at] ^ other->secret[at];
    }
    return differing == 0;
}

static int digit_value(char digit) {
    if (digit >= '0' && digit <= '9') {
        return digit - '0';
    }
    if (digit >= 'a' && digit <= 'f') {
        return digit - 'a' + 10;
    }
    return digit >= 'A' && digit <= 'F' ? digit - 'A' + 10 : -1;
}

static bool from_digits(tsd_capability *cap, const char *digits, size_t length) {
    tsd_capability_wipe(cap);
    for (size_t at = 0; length == 2 * TSD_CAPABILITY_BYTES && at < TSD_CAPABILITY_BYTES; at++) {
        int high = digit_value(digits[2 * at]), low = digit_value(digits[2 * at + 1]);
        if (high < 0 || low < 0) {
            tsd_capability_wipe(cap);
            return false;
        }
        cap->secret[at] = (uint8_t)(high << 4 | low);
    }
    return length == 2 * TSD_CAPABILITY_BYTES;
}

bool tsd_capability_from_hex(tsd_capability *cap, const char *digits) {
    return from_digits(cap, digits, strlen(digits));
}

/* Reads up to so many bytes; how many came, or -1 with errno. */
static ssize_t read_file(const char *path, void *into, size_t most) {
    int file = open(path, O_RDONLY | O_CLOEXEC);
    size_t filled = 0;
    ssize_t count = file < 0 ? -1 : 1;
    while (count > 0 && filled < most) {
        count = read(file, (char *)into + filled, most - filled);
        if (count < 0 && errno == EINTR) {
            count = 1;
        } else if (count > 0) {
            filled += (size_t)count;
        }
    }
    int error = errno;
    if (file >= 0) {
        close(file);
    }
    errno = error;
    return count < 0 ? -1 : (ssize_t)filled;
}

bool tsd_capability_from_file(tsd_capability *cap, const char *path) {
    static const char spaces[] = " \t\n\v\f\r";
    char text[MOST_FILE + 1];
    tsd_capability_wipe(cap);
    ssize_t length = read_file(path, text, MOST_FILE);
    if (length < 0) {
        return false;
    }
    text[length] = 0;
    const char *word = text + strspn(text, spaces);
    bool is_one = from_digits(cap, word, strcspn(word, spaces));
    wipe(text, sizeof text);
    errno = 0;
    return is_one;
}

bool tsd_capability_random(tsd_capability *cap) {
    return read_file("/dev/urandom", cap->secret, TSD_CAPABILITY_BYTES) == TSD_CAPABILITY_BYTES;
}

/* --- the other side --- */

static int64_t now_ms(void) {
    struct timespec now;
    clock_gettime(CLOCK_MONOTONIC, &now);
    return (int64_t)now.tv_sec * 1000 + now.tv_nsec / 1000000;
}

static const char *named_program(const tsd_options *options) {
    const char *named = getenv("TSD_PROGRAM");
    if (options->program != NULL) {
        return options->program;
    }
    return named != NULL && named[0] != 0 ? named : "tsd";
}

/* Starts a program with these standard streams, in a process group of its own: a Ctrl-C at the terminal doesn't reach
   it. A stream below 0 is /dev/null. 0, or the number of the error. */
static int start(pid_t *child, const char *program, const char *const words[], int stream, int error) {
    posix_spawn_file_actions_t actions;
    posix_spawnattr_t ways;
    sigset_t pipes;
    sigemptyset(&pipes);
    sigaddset(&pipes, SIGPIPE);
    posix_spawn_file_actions_init(&actions);
    posix_spawnattr_init(&ways);
    posix_spawnattr_setflags(&ways, POSIX_SPAWN_SETPGROUP | POSIX_SPAWN_SETSIGDEF);
    posix_spawnattr_setsigdefault(&ways, &pipes);
    for (int to = 0; to <= 2; to++) {
        int from = to == 2 ? error : stream;
        if (from < 0) {
            posix_spawn_file_actions_addopen(&actions, to, "/dev/null", O_RDWR, 0);
        } else {
            posix_spawn_file_actions_adddup2(&actions, from, to);
        }
    }
    /* (the words are not changed, whatever the type says) */
    int failed = posix_spawnp(child, program, &actions, &ways, (char *const *)(uintptr_t)words, environ);
    posix_spawnattr_destroy(&ways);
    posix_spawn_file_actions_destroy(&actions);
    return failed;
}

/* The command that serves: `group` where the program has it. */
static const char *served_by(const char *program) {
    const char *const words[] = {program, "help", "group", NULL};
    pid_t child;
    int status = -1;
    if (start(&child, program, words, -1, -1) == 0) {
        while (waitpid(child, &status, 0) < 0 && errno == EINTR) {
        }
    }
    return status == 0 ? "group" : "serve";
}

/* Two ends of a stream that no other program gets. */
static bool pair(int ends[2]) {
    if (socketpair(AF_UNIX, SOCK_STREAM, 0, ends) != 0) {
        return false;
    }
    fcntl(ends[0], F_SETFD, FD_CLOEXEC);
    fcntl(ends[1], F_SETFD, FD_CLOEXEC);
    return true;
}

static tsd_disk *new_disk(const tsd_options *options) {
    tsd_disk *disk = calloc(1, sizeof *disk);
    if (disk != NULL) {
        disk->limit_ms = options->limit_ms != 0 ? options->limit_ms : 1000u * TSD_LIMIT_SECONDS;
        disk->stream = disk->words = -1;
        disk->child = -1;
    }
    return disk;
}

static void free_disk(tsd_disk *disk) {
    if (disk->stream >= 0) {
        close(disk->stream);
    }
    if (disk->words >= 0) {
        close(disk->words);
    }
    free(disk);
}

/* Whether the program takes an image's name for another word; then it gets a `./`. */
static bool is_word(const char *image) {
    return strcmp(image, "help") == 0 || strcmp(image, "mirror") == 0 || (image[0] == '-' && image[1] != 0);
}

static int open_program(tsd_disk *disk, const char *image, const tsd_options *options) {
    const char *program = named_program(options);
    const char *command = options->command != NULL ? options->command : served_by(program);
    size_t room = strlen(image) + sizeof "./";
    char *name = malloc(room);
    int stream[2] = {-1, -1}, words[2] = {-1, -1}, failed = ENOMEM;
    if (name != NULL) {
        snprintf(name, room, "%s%s", is_word(image) ? "./" : "", image);
        const char *const all[] = {program, name, command, options->place != NULL ? options->place : "near", NULL};
        failed = pair(stream) && pair(words) ? start(&disk->child, program, all, stream[1], words[1]) : errno;
    }
    disk->stream = stream[0];
    disk->words = words[0];
    if (stream[1] >= 0) {
        close(stream[1]);
    }
    if (words[1] >= 0) {
        close(words[1]);
    }
    free(name);
    return failed;
}

tsd_disk *tsd_open(const char *image, const tsd_options *options) {
    static const tsd_options usual;
    options = options != NULL ? options : &usual;
    tsd_disk *disk = new_disk(options);
    if (disk == NULL) {
        return NULL;
    }
    int failed = open_program(disk, image, options);
    if (failed != 0) {
        free_disk(disk);
        errno = failed;
        return NULL;
    }
    return disk;
}

tsd_disk *tsd_connect(const char *socket_path, const tsd_options *options) {
    static const tsd_options usual;
    struct sockaddr_un address = {.sun_family = AF_UNIX};
    if (strlen(socket_path) >= sizeof address.sun_path) {
        errno = ENAMETOOLONG;
        return NULL;
    }
    memcpy(address.sun_path, socket_path, strlen(socket_path));
    tsd_disk *disk = new_disk(options != NULL ? options : &usual);
    if (disk == NULL) {
        return NULL;
    }
    disk->stream = socket(AF_UNIX, SOCK_STREAM, 0);
    if (disk->stream < 0 || connect(disk->stream, (struct sockaddr *)&address, sizeof address) != 0) {
        int failed = errno;
        free_disk(disk);
        errno = failed;
        return NULL;
    }
    fcntl(disk->stream, F_SETFD, FD_CLOEXEC);
    return disk;
}

/* --- how a link ends --- */

/* The first end stays. No request is under way any more. */
static void end_link(tsd_disk *disk, tsd_why why, int status, const char *words) {
    if (disk->end.why == TSD_NOT_ENDED) {
        disk->end.why = why;
        disk->end.status = status;
        snprintf(disk->end.words, sizeof disk->end.words, "%s", words);
    }
    disk->under_way = 0;
}

static void kill_program(tsd_disk *disk) {
    if (disk->child > 0) {
        kill(disk->child, SIGKILL);
        while (waitpid(disk->child, NULL, 0) < 0 && errno == EINTR) {
        }
        disk->child = -1;
    }
}

/* Waits for the program's end within the limit, and then kills it; its status, below 0 the number of a signal. */
static int wait_for_program(tsd_disk *disk) {
    const struct timespec nap = {0, NAP_NS};
    int64_t until = now_ms() + disk->limit_ms;
    int status = 0;
    pid_t done = 0;
    while (done == 0) {
        done = waitpid(disk->child, &status, now_ms() < until ? WNOHANG : 0);
        if (done == 0) {
            nanosleep(&nap, NULL);
            if (now_ms() >= until) {
                kill(disk->child, SIGKILL);
            }
        } else if (done < 0 && errno == EINTR) {
            done = 0;
        }
    }
    disk->child = -1;
    return WIFSIGNALED(status) ? -WTERMSIG(status) : WEXITSTATUS(status);
}

/* What the program has put on standard error, without the line feed at its end. */
static void read_words(tsd_disk *disk, char *words, size_t room) {
    struct pollfd ready = {.fd = disk->words, .events = POLLIN};
    size_t filled = 0;
    ssize_t count = 1;
    while (count > 0 && filled + 1 < room && poll(&ready, 1, WORDS_WAIT_MS) > 0) {
        count = read(disk->words, words + filled, room - 1 - filled);
        filled += count > 0 ? (size_t)count : 0;
    }
    while (filled > 0 && strchr(" \n", words[filled - 1]) != NULL) {
        filled--;
    }
    words[filled] = 0;
}

/* Nothing more comes. */
static void end_of_stream(tsd_disk *disk) {
    char words[TSD_MOST_WORDS] = "";
    bool inside_frame = disk->filled > disk->start;
    if (disk->child > 0) {
        int status = wait_for_program(disk);
        read_words(disk, words, sizeof words);
        end_link(disk, TSD_PROGRAM_ENDED, status, words);
    } else {
        end_link(disk, TSD_HUB_GONE, 0, "");
    }
    disk->end.inside_frame = inside_frame;
}

/* --- frames --- */

/* Takes what comes, or waits for a nap: for a reply, or where is_sending until something can be sent too. */
static void wait_so_long(tsd_disk *disk, bool is_sending, unsigned nap_ms) {
    struct pollfd ready = {.fd = disk->stream, .events = POLLIN};
    if (disk->start > 0) {
        memmove(disk->came, disk->came + disk->start, disk->filled - disk->start);
        disk->filled -= disk->start;
        disk->start = 0;
    }
    ready.events = (short)((disk->filled < MOST_CAME ? POLLIN : 0) | (is_sending ? POLLOUT : 0));
    int count = poll(&ready, 1, (int)nap_ms);
    if (count > 0 && (ready.revents & ~POLLOUT) != 0 && disk->filled < MOST_CAME) {
        ssize_t length = recv(disk->stream, disk->came + disk->filled, MOST_CAME - disk->filled, MSG_DONTWAIT);
        if (length > 0) {
            disk->filled += (size_t)length;
        } else if (length == 0 || errno == ECONNRESET) {
            end_of_stream(disk);
        } else if (errno != EINTR && errno != EAGAIN && errno != EWOULDBLOCK) {
            end_link(disk, TSD_SYSTEM, errno, "reading the replies failed");
        }
    }
    if (disk->end.why == TSD_NOT_ENDED && now_ms() - disk->since > disk->limit_ms) {
        kill_program(disk);
        end_link(disk, TSD_SILENT, 0, "");
    }
}

static void wait_for_more(tsd_disk *disk, bool is_sending) {
    wait_so_long(disk, is_sending, disk->limit_ms < LONGEST_NAP_MS ? disk->limit_ms : LONGEST_NAP_MS);
}

/* Whether a whole frame is there. */
static bool has_frame(const tsd_disk *disk) {
    const uint8_t *left = disk->came + disk->start;
    size_t count = disk->filled - disk->start;
    return count >= LENGTH_BYTES && count >= LENGTH_BYTES + (size_t)(left[0] | left[1] << 8);
}

/* The body of the next frame, where it is there. */
static bool next_body(tsd_disk *disk, const uint8_t **body, size_t *length) {
    const uint8_t *left = disk->came + disk->start;
    if (!has_frame(disk)) {
        return false;
    }
    *length = (size_t)(left[0] | left[1] << 8);
    *body = left + LENGTH_BYTES;
    disk->start += LENGTH_BYTES + *length;
    disk->since = now_ms();
    return true;
}

/* The body of the next frame, once it is there; false where the link ends. */
static bool take_body(tsd_disk *disk, const uint8_t **body, size_t *length) {
    while (!next_body(disk, body, length)) {
        if (disk->end.why != TSD_NOT_ENDED) {
            return false;
        }
        wait_for_more(disk, false);
    }
    return true;
}

/* Sends bytes; where the other side takes none, replies are taken meanwhile. Where it has gone, what it sent before and
   how it ended is told by the replies. */
static void put(tsd_disk *disk, const uint8_t *bytes, size_t length) {
    while (length > 0 && disk->end.why == TSD_NOT_ENDED) {
        ssize_t count = send(disk->stream, bytes, length, MSG_NOSIGNAL | MSG_DONTWAIT);
        if (count >= 0) {
            bytes += count;
            length -= (size_t)count;
        } else if (errno == EAGAIN || errno == EWOULDBLOCK) {
            wait_for_more(disk, true);
        } else if (errno != EINTR) {
            return;
        }
    }
}

/* Sends what is held back. */
static void put_held(tsd_disk *disk) {
    if (disk->held_length > 0) {
        put(disk, disk->held, disk->held_length);
        wipe(disk->held, disk->held_length);
        disk->held_length = 0;
    }
}

/* --- requests --- */

static uint8_t *put_number(uint8_t *at, uint32_t number) {
    for (int shift = 0; shift < 32; shift += 8) {
        *at++ = (uint8_t)(number >> shift);
    }
    return at;
}

/* Byte by byte, so that it is never whole in a register: the system's loader keeps registers in memory. */
static uint8_t *put_secret(uint8_t *at, const tsd_capability *cap) {
    const volatile uint8_t *secret = cap->secret;
    for (int byte = 0; byte < TSD_CAPABILITY_BYTES; byte++) {
        *at++ = secret[byte];
    }
    return at;
}

/* A byte 0 where nothing is shown, or a byte 1 and the capability. */
static uint8_t *put_shown(uint8_t *at, const tsd_capability *cap) {
    *at++ = cap != NULL;
    return cap != NULL ? put_secret(at, cap) : at;
}

/* What stands behind the shown capability. */
static uint8_t *put_rest(uint8_t *at, const tsd_request *request) {
    size_t length = request->length < MOST_DATA ? request->length : MOST_DATA;
    switch (request->code) {
    case TSD_WRITE:
        if (length > 0) {
            memcpy(at, request->data, length);
        }
        return at + length;
    case TSD_ALLOC:
    case TSD_ALLOC_CONTIGUOUS:
        *at++ = request->hint != NULL;
        at = request->hint != NULL ? put_number(at, *request->hint) : at;
        return put_number(at, request->number);
    case TSD_CREATE:
    case TSD_DELETE:
    case TSD_LIST:
        return put_number(at, request->number);
    case TSD_SET_CAPABILITIES:
        return put_secret(put_secret(at, request->read), request->write);
    default:
        return at;
    }
}

/* The body of a request; where it ends. */
static uint8_t *put_body(uint8_t *at, const tsd_request *request) {
    *at++ = (uint8_t)request->code;
    switch (request->code) {
    case TSD_GET_GEOMETRY:
        *at++ = HUB_GREETING;
        return at;
    case TSD_GET_FREE:
        return at;
    case TSD_OPEN_SESSION:
    case TSD_CLOSE_SESSION:
        return put_number(at, request->session);
    case TSD_SWEEP:
        return put_shown(put_number(at, request->session), request->shown);
    default:
        at = put_number(put_number(at, request->session), request->block);
        return put_rest(put_shown(at, request->shown), request);
    }
}

tsd_outcome tsd_send(tsd_disk *disk, const tsd_request *request) {
    uint8_t text[MOST_REQUEST];
    if (disk->end.why != TSD_NOT_ENDED) {
        return TSD_ENDED;
    }
    if (disk->under_way == TSD_MOST_UNDER_WAY) {
        return TSD_BUSY;
    }
    size_t length = (size_t)(put_body(text + LENGTH_BYTES, request) - text) - LENGTH_BYTES;
    text[0] = (uint8_t)length;
    text[1] = (uint8_t)(length >> 8);
    disk->asked[(disk->first + disk->under_way) % TSD_MOST_UNDER_WAY] = request->code;
    disk->under_way++;
    disk->since = now_ms();
    if (disk->held != NULL) {
        memcpy(disk->held + disk->held_length, text, LENGTH_BYTES + length);
        disk->held_length += LENGTH_BYTES + length;
    } else {
        put(disk, text, LENGTH_BYTES + length);
    }
    wipe(text, LENGTH_BYTES + length);
    return disk->end.why == TSD_NOT_ENDED ? TSD_OK : TSD_ENDED;
}

bool tsd_hold(tsd_disk *disk) {
    if (disk->held == NULL) {
        disk->held = malloc((size_t)TSD_MOST_UNDER_WAY * MOST_REQUEST);
    }
    return disk->held != NULL;
}

tsd_outcome tsd_release(tsd_disk *disk) {
    put_held(disk);
    free(disk->held);
    disk->held = NULL;
    return disk->end.why == TSD_NOT_ENDED ? TSD_OK : TSD_ENDED;
}

/* --- replies --- */

static uint32_t number_at(const uint8_t *at) {
    return (uint32_t)at[0] | (uint32_t)at[1] << 8 | (uint32_t)at[2] << 16 | (uint32_t)at[3] << 24;
}

/* Numbers, of which there have to be from the least to the most. */
static bool take_numbers(tsd_answer *answer, const uint8_t *rest, size_t length, size_t least, size_t most) {
    if (length % 4 != 0 || length / 4 < least || length / 4 > most) {
        return false;
    }
    answer->count = length / 4;
    for (size_t at = 0; at < answer->count; at++) {
        answer->numbers[at] = number_at(rest + 4 * at);
    }
    return true;
}

static bool take_bytes(tsd_answer *answer, const uint8_t *rest, size_t length) {
    if (length != 512 && length != 1024 && length != 2048 && length != 4096) {
        return false;
    }
    answer->length = length;
    memcpy(answer->bytes, rest, length);
    return true;
}

static bool take_refusal(tsd_refusal *refusal, const uint8_t *rest, size_t length) {
    if (length == 0 || rest[0] > TSD_POINTERS_FULL) {
        return false;
    }
    *refusal = (tsd_refusal){.rule = (tsd_rule)rest[0]};
    if (refusal->rule == TSD_DENIED) {
        if (length != 3 || rest[1] > TSD_LEVEL_WRITE || rest[2] > TSD_LEVEL_WRITE) {
            return false;
        }
        refusal->numbers[0] = rest[1];
        refusal->numbers[1] = rest[2];
        return true;
    }
    if (refusal->rule < TSD_FULL) {
        return length == 1;
    }
    if (length != 9) {
        return false;
    }
    refusal->numbers[0] = number_at(rest + 1);
    refusal->numbers[1] = number_at(rest + 5);
    return true;
}

/* A reply that a body is: its code, or 0 where it is none. What a hub tells of an end is none. */
static int take_reply(tsd_answer *answer, const uint8_t *body, size_t length) {
    const uint8_t *rest = body + 1;
    size_t count = length - 1;
    bool is_one = false;
    if (length == 0) {
        return 0;
    }
    switch (body[0]) {
    case DONE:
    case NO_MEMORY:
        is_one = count == 0;
        break;
    case BYTES:
        is_one = take_bytes(answer, rest, count);
        break;
    case BLOCKS:
        is_one = take_numbers(answer, rest, count, 1, TSD_MOST_NEW_BLOCKS);
        break;
    case FREE:
    case GONE:
        is_one = take_numbers(answer, rest, count, 1, 1);
        break;
    case TARGETS:
        is_one = take_numbers(answer, rest, count, 0, TSD_MOST_TARGETS);
        break;
    case REFUSED:
        is_one = take_refusal(&answer->refusal, rest, count);
        break;
    case GREETING:
        is_one = count >= 17 && rest[0] == HUB_GREETING && take_numbers(answer, rest + 1, 16, 4, 4);
        break;
    default:
        break;
    }
    return is_one ? body[0] : 0;
}

/* What a hub tells of an end: whether the body is that. */
static bool take_end(tsd_disk *disk, const uint8_t *body, size_t length) {
    static const tsd_why ends[] = {
        [HUB_FULL] = TSD_HUB_FULL, [HUB_DISK_ENDED] = TSD_DISK_ENDED, [HUB_STOPPED] = TSD_HUB_STOPPED,
        [HUB_IDLE] = TSD_HUB_IDLE,
    };
    if (length < 6 || body[0] != HUB || body[1] > HUB_IDLE || ends[body[1]] == TSD_NOT_ENDED) {
        return false;
    }
    char words[TSD_MOST_WORDS];
    snprintf(words, sizeof words, "%.*s", (int)(length - 6), (const char *)body + 6);
    end_link(disk, ends[body[1]], (int)(int32_t)number_at(body + 2), words);
    return true;
}

/* The kind of reply that answers a request. */
static int expected(tsd_code code) {
    switch (code) {
    case TSD_READ:
        return BYTES;
    case TSD_ALLOC:
    case TSD_ALLOC_CONTIGUOUS:
        return BLOCKS;
    case TSD_GET_FREE:
        return FREE;
    case TSD_DELETE:
    case TSD_SWEEP:
        return GONE;
    case TSD_LIST:
        return TARGETS;
    case TSD_GET_GEOMETRY:
        return GREETING;
    default:
        return DONE;
    }
}

/* The next reply: its code, or 0 where the link ends. A size that nobody asked for is passed over. */
static int next_reply(tsd_disk *disk, tsd_answer *answer, bool asks_geometry) {
    const uint8_t *body;
    size_t length;
    int code = GREETING;
    while (code == GREETING) {
        if (!take_body(disk, &body, &length) || take_end(disk, body, length)) {
            return 0;
        }
        code = take_reply(answer, body, length);
        if (code == GREETING && asks_geometry) {
            return code;
        }
    }
    if (code == 0) {
        end_link(disk, TSD_NO_REPLY, 0, "what came is no reply");
    }
    return code;
}

tsd_outcome tsd_take(tsd_disk *disk, tsd_answer *answer) {
    if (disk->under_way == 0) {
        return disk->end.why == TSD_NOT_ENDED ? TSD_BUSY : TSD_ENDED;
    }
    put_held(disk);
    answer->code = disk->asked[disk->first];
    answer->count = answer->length = 0;
    disk->since = now_ms();
    int code = next_reply(disk, answer, answer->code == TSD_GET_GEOMETRY);
    if (code == 0) {
        return TSD_ENDED;
    }
    disk->first = (disk->first + 1) % TSD_MOST_UNDER_WAY;
    disk->under_way--;
    if (code == NO_MEMORY) {
        return TSD_NO_MEMORY;
    }
    if (code == REFUSED) {
        disk->refusal = answer->refusal;
        return TSD_REFUSED;
    }
    if (code != expected(answer->code)) {
        end_link(disk, TSD_NO_REPLY, 0, "the reply is of another kind than its request");
        return TSD_ENDED;
    }
    if (code == GREETING) {
        const uint32_t *numbers = answer->numbers;
        answer->geometry = (tsd_geometry){numbers[0], numbers[1], numbers[2], numbers[3]};
    }
    return TSD_OK;
}

bool tsd_has_come(tsd_disk *disk) {
    put_held(disk);
    if (!has_frame(disk) && disk->end.why == TSD_NOT_ENDED) {
        wait_so_long(disk, false, 0);
    }
    return has_frame(disk) || disk->end.why != TSD_NOT_ENDED;
}

int tsd_stream(const tsd_disk *disk) {
    return disk->stream;
}

unsigned tsd_under_way(const tsd_disk *disk) {
    return disk->under_way;
}

tsd_outcome tsd_ask(tsd_disk *disk, const tsd_request *request, tsd_answer *answer) {
    if (disk->under_way > 0) {
        return TSD_BUSY;
    }
    tsd_outcome sent = tsd_send(disk, request);
    return sent == TSD_OK ? tsd_take(disk, answer) : sent;
}

/* All that comes once nothing more is asked; how many requests got no reply. */
static unsigned take_end_of_stream(tsd_disk *disk) {
    const uint8_t *body;
    size_t length;
    tsd_answer answer;
    unsigned lost = 0;
    while (disk->under_way > 0) {
        unsigned waiting = disk->under_way;
        lost = tsd_take(disk, &answer) == TSD_ENDED ? waiting : 0;
    }
    disk->since = now_ms();
    while (take_body(disk, &body, &length) && disk->end.why == TSD_NOT_ENDED) {
        if (!take_end(disk, body, length) && take_reply(&answer, body, length) != GREETING) {
            end_link(disk, TSD_NO_REPLY, 0, "a reply came to no request");
        }
    }
    return lost;
}

bool tsd_close(tsd_disk *disk, tsd_end *end) {
    if (disk == NULL) {
        return true;
    }
    tsd_release(disk);
    bool was_ended = disk->end.why != TSD_NOT_ENDED;
    shutdown(disk->stream, SHUT_WR);
    unsigned lost = was_ended ? 0 : take_end_of_stream(disk);
    kill_program(disk);
    tsd_end ended = disk->end;
    bool is_good = !was_ended && lost == 0 && ended.status == 0 && !ended.inside_frame;
    is_good = is_good && (ended.why == TSD_PROGRAM_ENDED || ended.why == TSD_HUB_GONE);
    if (end != NULL) {
        *end = ended;
    }
    free_disk(disk);
    return is_good;
}

/* --- words --- */

tsd_refusal tsd_refusal_of(const tsd_disk *disk) {
    return disk->refusal;
}

const tsd_end *tsd_end_of(const tsd_disk *disk) {
    return &disk->end;
}

const char *tsd_refusal_words(const tsd_refusal *refusal, char *text, size_t room) {
    static const char *const levels[] = {"none", "read", "write"};
    static const char *const reasons[] = {
        "the body is no request", "the session isn't in 1 to 64", "the session isn't open",
        "the session is open already", "the count isn't in 1 to 32", "more bytes than a block has",
        "the disk has no block of this number", "the block is free", "only primary blocks have capabilities",
        "nothing points to a primary block", "", "the pointer is held already", "the pointer isn't held",
    };
    unsigned first = refusal->numbers[0], second = refusal->numbers[1];
    switch (refusal->rule) {
    case TSD_DENIED:
        snprintf(text, room, "denied: %s attained, %s needed", levels[first % 3], levels[second % 3]);
        break;
    case TSD_FULL:
        snprintf(text, room, "no room: %u blocks free, %u wanted", first, second);
        break;
    case TSD_NO_RUN:
        snprintf(text, room, "no %u blocks in a row: %u are free", second, first);
        break;
    case TSD_POINTERS_FULL:
        snprintf(text, room, "no room for pointers: %u of %u are held", first, second);
        break;
    default:
        snprintf(text, room, "%s", reasons[refusal->rule]);
    }
    return text;
}

const char *tsd_end_words(const tsd_end *end, char *text, size_t room) {
    static const char *const whys[] = {
        [TSD_NOT_ENDED] = "the link hasn't ended", [TSD_NO_REPLY] = "the disk sent what is no reply",
        [TSD_SILENT] = "no reply came within the limit", [TSD_HUB_GONE] = "the hub's connection ended",
        [TSD_PROGRAM_ENDED] = "the disk's program ended", [TSD_DISK_ENDED] = "the hub's disk ended",
        [TSD_HUB_FULL] = "the hub has no session left", [TSD_HUB_STOPPED] = "the hub stopped",
        [TSD_HUB_IDLE] = "the hub closed the connection, which was idle", [TSD_SYSTEM] = "a call of the system failed",
    };
    char status[32] = "";
    if (end->why == TSD_PROGRAM_ENDED || end->why == TSD_DISK_ENDED || end->why == TSD_SYSTEM) {
        snprintf(status, sizeof status, " with %s %d", end->why == TSD_SYSTEM ? "error" : "status", end->status);
    }
    snprintf(text, room, "%s%s%s%s%s", whys[end->why], status, end->inside_frame ? " inside a frame" : "",
             end->words[0] != 0 ? ": " : "", end->words);
    return text;
}

/* --- the requests --- */

tsd_outcome tsd_open_session(tsd_disk *disk, uint32_t session) {
    tsd_answer answer;
    return tsd_ask(disk, &(tsd_request){.code = TSD_OPEN_SESSION, .session = session}, &answer);
}

tsd_outcome tsd_close_session(tsd_disk *disk, uint32_t session) {
    tsd_answer answer;
    return tsd_ask(disk, &(tsd_request){.code = TSD_CLOSE_SESSION, .session = session}, &answer);
}

tsd_outcome tsd_read(tsd_disk *disk, uint32_t session, uint32_t block, const tsd_capability *cap, void *into,
                     size_t room, size_t *length) {
    tsd_answer answer;
    tsd_request request = {.code = TSD_READ, .session = session, .block = block, .shown = cap};
    tsd_outcome outcome = tsd_ask(disk, &request, &answer);
    if (outcome == TSD_OK) {
        size_t count = answer.length < room ? answer.length : room;
        if (count > 0) {
            memcpy(into, answer.bytes, count);
        }
        if (length != NULL) {
            *length = answer.length;
        }
    }
    return outcome;
}

tsd_outcome tsd_write(tsd_disk *disk, uint32_t session, uint32_t block, const tsd_capability *cap, const void *data,
                      size_t length) {
    tsd_answer answer;
    tsd_request request = {.code = TSD_WRITE, .session = session, .block = block, .shown = cap};
    request.data = data;
    request.length = length;
    return tsd_ask(disk, &request, &answer);
}

/* As many blocks as were asked for: else the reply isn't one to this request. */
static tsd_outcome alloc(tsd_disk *disk, const tsd_request *request, uint32_t *blocks) {
    tsd_answer answer;
    tsd_outcome outcome = tsd_ask(disk, request, &answer);
    if (outcome == TSD_OK && answer.count != request->number) {
        end_link(disk, TSD_NO_REPLY, 0, "the reply has another number of blocks than was asked for");
        return TSD_ENDED;
    }
    if (outcome == TSD_OK) {
        memcpy(blocks, answer.numbers, answer.count * sizeof *blocks);
    }
    return outcome;
}

tsd_outcome tsd_alloc(tsd_disk *disk, uint32_t session, uint32_t source, const tsd_capability *cap,
                      const uint32_t *hint, uint32_t count, uint32_t *blocks) {
    tsd_request request = {.code = TSD_ALLOC, .session = session, .block = source, .shown = cap};
    request.number = count;
    request.hint = hint;
    return alloc(disk, &request, blocks);
}

tsd_outcome tsd_alloc_contiguous(tsd_disk *disk, uint32_t session, uint32_t source, const tsd_capability *cap,
                                 const uint32_t *hint, uint32_t count, uint32_t *blocks) {
    tsd_request request = {.code = TSD_ALLOC_CONTIGUOUS, .session = session, .block = source, .shown = cap};
    request.number = count;
    request.hint = hint;
    return alloc(disk, &request, blocks);
}

/* A request whose answer is a number. */
static tsd_outcome ask_number(tsd_disk *disk, const tsd_request *request, uint32_t *number) {
    tsd_answer answer;
    tsd_outcome outcome = tsd_ask(disk, request, &answer);
    if (outcome == TSD_OK && number != NULL) {
        *number = answer.numbers[0];
    }
    return outcome;
}

tsd_outcome tsd_get_free(tsd_disk *disk, uint32_t *count) {
    return ask_number(disk, &(tsd_request){.code = TSD_GET_FREE}, count);
}

tsd_outcome tsd_create(tsd_disk *disk, uint32_t session, uint32_t source, const tsd_capability *cap, uint32_t target) {
    tsd_answer answer;
    tsd_request request = {.code = TSD_CREATE, .session = session, .block = source, .shown = cap, .number = target};
    return tsd_ask(disk, &request, &answer);
}

tsd_outcome tsd_delete(tsd_disk *disk, uint32_t session, uint32_t source, const tsd_capability *cap, uint32_t target,
                       uint32_t *gone) {
    tsd_request request = {.code = TSD_DELETE, .session = session, .block = source, .shown = cap, .number = target};
    return ask_number(disk, &request, gone);
}

tsd_outcome tsd_set_capabilities(tsd_disk *disk, uint32_t session, uint32_t block, const tsd_capability *cap,
                                 const tsd_capability *read, const tsd_capability *write) {
    tsd_answer answer;
    tsd_request request = {.code = TSD_SET_CAPABILITIES, .session = session, .block = block, .shown = cap};
    request.read = read;
    request.write = write;
    return tsd_ask(disk, &request, &answer);
}

tsd_outcome tsd_sweep(tsd_disk *disk, uint32_t session, const tsd_capability *cap, uint32_t *gone) {
    return ask_number(disk, &(tsd_request){.code = TSD_SWEEP, .session = session, .shown = cap}, gone);
}

tsd_outcome tsd_list(tsd_disk *disk, uint32_t session, uint32_t source, const tsd_capability *cap, uint32_t start_at,
                     uint32_t *targets, size_t *count) {
    tsd_answer answer;
    tsd_request request = {.code = TSD_LIST, .session = session, .block = source, .shown = cap, .number = start_at};
    tsd_outcome outcome = tsd_ask(disk, &request, &answer);
    if (outcome == TSD_OK) {
        memcpy(targets, answer.numbers, answer.count * sizeof *targets);
        *count = answer.count;
    }
    return outcome;
}

tsd_outcome tsd_get_geometry(tsd_disk *disk, tsd_geometry *geometry) {
    tsd_answer answer;
    tsd_outcome outcome = tsd_ask(disk, &(tsd_request){.code = TSD_GET_GEOMETRY}, &answer);
    if (outcome == TSD_OK) {
        *geometry = answer.geometry;
    }
    return outcome;
}
