/* Carries out the lines of clients/cases.txt by the client, for tests/c_client.py, which reads the table and compares.

     run_cases program IMAGE [together | held]   request lines of standard input; their replies, and how the link ended
     run_cases hub SOCKET [together | held]
     run_cases link program PROGRAM       opens session 1 and closes; how the link ended
     run_cases link hub SOCKET
     run_cases replies                    bodies as hexadecimal digits; what each says
     run_cases calls IMAGE CAPABILITY     each call of tsd.h once, and what it answers

   The client's file is taken in whole: so what is static in it is tried too. */
#include "../tsd.c"

enum { MOST_WORDS_OF_A_LINE = 8, SAME_BYTES = 16, LINK_LIMIT_MS = 20000 };

static const char *const rules[] = {
    "bad-request", "bad-session", "not-open", "already-open", "bad-count", "bad-size", "no-such-block", "free-block",
    "not-primary", "is-primary", "denied", "pointer-exists", "no-pointer", "full", "run", "pointers-full",
};

static void print_refusal(const tsd_refusal *refusal) {
    static const char *const levels[] = {"none", "read", "write"};
    printf("%s", rules[refusal->rule]);
    if (refusal->rule == TSD_DENIED) {
        printf(" %s %s", levels[refusal->numbers[0]], levels[refusal->numbers[1]]);
    } else if (refusal->rule >= TSD_FULL) {
        printf(" %u %u", refusal->numbers[0], refusal->numbers[1]);
    }
}

static void print_end(const tsd_end *end) {
    static const char *const whys[] = {
        "closed", "no-reply", "silent", "ended", "program-ended", "disk-ended", "hub-full", "hub-stopped", "hub-idle",
        "system",
    };
    printf("%s", whys[end->why]);
    if (end->why == TSD_PROGRAM_ENDED || end->why == TSD_DISK_ENDED) {
        printf(" %d", end->status);
    }
    if (end->inside_frame) {
        printf(" inside");
    }
    if ((end->why == TSD_DISK_ENDED || end->why == TSD_HUB_FULL || end->why == TSD_HUB_IDLE) && end->words[0] != 0) {
        printf(" %s", end->words);
    }
}

static void print_data(const uint8_t *bytes, size_t length) {
    size_t same = 1;
    while (length > 0 && bytes[length - 1] == 0) {
        length--;
    }
    while (same < length && bytes[same] == bytes[0]) {
        same++;
    }
    printf(length == 0 ? "data -" : "data ");
    if (length > SAME_BYTES && same == length) {
        printf("%02x*%zu", bytes[0], length);
        return;
    }
    for (size_t at = 0; at < length; at++) {
        printf("%02x", bytes[at]);
    }
}

static void print_numbers(const char *word, const tsd_answer *answer) {
    printf("%s%s", word, answer->count == 0 ? " -" : "");
    for (size_t at = 0; at < answer->count; at++) {
        printf(" %u", answer->numbers[at]);
    }
}

/* A reply by its code. */
static void print_reply(int code, const tsd_answer *answer) {
    switch (code) {
    case DONE:
        printf("ok");
        break;
    case BYTES:
        print_data(answer->bytes, answer->length);
        break;
    case BLOCKS:
        print_numbers("blocks", answer);
        break;
    case FREE:
        print_numbers("free", answer);
        break;
    case GONE:
        print_numbers("gone", answer);
        break;
    case TARGETS:
        print_numbers("list", answer);
        break;
    case NO_MEMORY:
        printf("no memory");
        break;
    case REFUSED:
        printf("no ");
        print_refusal(&answer->refusal);
        break;
    case GREETING:
        print_numbers("greeting", answer);
        break;
    default:
        printf("none");
    }
}

static void print_answer(const tsd_disk *disk, tsd_outcome outcome, const tsd_answer *answer) {
    if (outcome == TSD_ENDED) {
        print_end(tsd_end_of(disk));
    } else {
        int other = outcome == TSD_NO_MEMORY ? NO_MEMORY : expected(answer->code);
        print_reply(outcome == TSD_REFUSED ? REFUSED : other, answer);
    }
    printf("\n");
}

/* What a line of the table asks, with the memory that it needs. */
typedef struct {
    tsd_request request;
    tsd_capability shown, read, write;
    uint32_t hint;
    uint8_t *data;
} line_request;

static size_t bytes_of(const char *digits, uint8_t *into) {
    size_t length = strlen(digits) / 2;
    for (size_t at = 0; at < length; at++) {
        into[at] = (uint8_t)(digit_value(digits[2 * at]) << 4 | digit_value(digits[2 * at + 1]));
    }
    return length;
}

static const tsd_capability *shown_of(const char *word, tsd_capability *cap) {
    return word != NULL && tsd_capability_from_hex(cap, word) ? cap : NULL;
}

static uint32_t number_of(const char *word) {
    return word == NULL ? 0 : (uint32_t)strtoul(word, NULL, 10);
}

static tsd_code code_of(const char *word) {
    static const char *const words[] = {
        "", "open", "close", "read", "write", "alloc", "contig", "free", "create", "delete", "setcap", "sweep", "list",
    };
    tsd_code code = TSD_LIST;
    while (code > 0 && strcmp(words[code], word) != 0) {
        code--;
    }
    return code;
}

static void read_line(char *line, line_request *one) {
    char *words[MOST_WORDS_OF_A_LINE] = {NULL}, *rest = NULL;
    int count = 0;
    for (char *word = strtok_r(line, " \n", &rest); word != NULL && count < MOST_WORDS_OF_A_LINE;
         word = strtok_r(NULL, " \n", &rest)) {
        words[count++] = word;
    }
    *one = (line_request){.request = {.code = code_of(words[0]), .session = number_of(words[1])}};
    tsd_request *request = &one->request;
    request->shown = shown_of(words[request->code == TSD_SWEEP ? 2 : 3], &one->shown);
    request->block = number_of(words[2]);
    if (request->code == TSD_WRITE && words[4][0] != '-') {
        one->data = malloc(strlen(words[4]) / 2);
        request->length = bytes_of(words[4], one->data);
        request->data = one->data;
    } else if (request->code == TSD_SET_CAPABILITIES) {
        request->read = shown_of(words[4], &one->read);
        request->write = shown_of(words[5], &one->write);
    } else if (request->code == TSD_ALLOC || request->code == TSD_ALLOC_CONTIGUOUS) {
        one->hint = number_of(words[4]);
        request->hint = words[4][0] == '-' ? NULL : &one->hint;
        request->number = number_of(words[5]);
    } else {
        request->number = number_of(words[4]);
    }
}

static void take_one(tsd_disk *disk) {
    tsd_answer answer = {.code = TSD_GET_FREE};
    tsd_outcome outcome = tsd_take(disk, &answer);
    print_answer(disk, outcome, &answer);
}

static int run_lines(tsd_disk *disk, const char *way) {
    bool together = way != NULL, held = together && strcmp(way, "held") == 0;
    if (held && !tsd_hold(disk)) {
        return 1;
    }
    char *line = NULL;
    size_t room = 0;
    tsd_end end;
    while (getline(&line, &room, stdin) > 0) {
        line_request one;
        read_line(line, &one);
        if (tsd_under_way(disk) == TSD_MOST_UNDER_WAY) {
            take_one(disk);
        }
        tsd_send(disk, &one.request);
        free(one.data);
        if (!together) {
            take_one(disk);
        }
    }
    while (tsd_under_way(disk) > 0) {
        take_one(disk);
    }
    free(line);
    if (tsd_close(disk, &end)) {
        end.why = TSD_NOT_ENDED;
        end.inside_frame = false;
    }
    print_end(&end);
    printf("\n");
    return 0;
}

static int run_link(tsd_disk *disk) {
    tsd_end end;
    tsd_outcome outcome = tsd_open_session(disk, 1);
    tsd_refusal refusal = tsd_refusal_of(disk);
    if (outcome == TSD_ENDED && tsd_get_free(disk, NULL) != TSD_ENDED) {
        printf("the end didn't stay\n");
    }
    bool was_good = tsd_close(disk, &end);
    if (outcome == TSD_REFUSED) {
        printf("open-refused ");
        print_refusal(&refusal);
    } else if (outcome == TSD_NO_MEMORY) {
        printf("no-memory");
    } else {
        print_end(&end);
    }
    char words[TSD_MOST_WORDS];
    printf("\n%s\n%s\n", was_good ? "good" : "not good", tsd_end_words(&end, words, sizeof words));
    return 0;
}

/* A body, as memory of exactly its length: so a read behind its end is seen. */
static void print_body(const char *digits) {
    size_t length = strlen(digits) / 2;
    uint8_t *body = malloc(length + (length == 0));
    tsd_disk *disk = calloc(1, sizeof *disk);
    tsd_answer answer = {.code = 0};
    bytes_of(digits, body);
    if (take_end(disk, body, length)) {
        print_end(&disk->end);
    } else {
        print_reply(take_reply(&answer, body, length), &answer);
    }
    printf("\n");
    free(disk);
    free(body);
}

static int run_replies(void) {
    char *line = NULL;
    size_t room = 0;
    while (getline(&line, &room, stdin) > 0) {
        line[strcspn(line, "\n")] = 0;
        print_body(line);
    }
    free(line);
    return 0;
}

/* Prints what came of a call, and so many numbers. */
static void said(const char *call, int outcome, const uint32_t *numbers, size_t count) {
    printf("%s %d", call, outcome);
    for (size_t at = 0; at < count; at++) {
        printf(" %u", numbers[at]);
    }
    printf("\n");
}

/* The calls that give blocks and pointers. */
static void call_of_pointers(tsd_disk *disk, const tsd_capability *cap) {
    uint32_t blocks[TSD_MOST_TARGETS], hint = 9, number = 0;
    size_t count = 0;
    tsd_outcome outcome = tsd_alloc(disk, 1, 0, cap, NULL, 2, blocks);
    said("alloc", outcome, blocks, 2);
    outcome = tsd_alloc_contiguous(disk, 1, 0, cap, &hint, 1, blocks);
    said("contiguous", outcome, blocks, 1);
    said("create", tsd_create(disk, 1, 1, NULL, 2), NULL, 0);
    outcome = tsd_list(disk, 1, 0, cap, 2, blocks, &count);
    said("list", outcome, blocks, count);
    outcome = tsd_delete(disk, 1, 0, cap, 9, &number);
    said("delete", outcome, &number, 1);
    outcome = tsd_sweep(disk, 1, cap, &number);
    said("sweep", outcome, &number, 1);
    outcome = tsd_get_free(disk, &number);
    said("free", outcome, &number, 1);
}

/* Each call of the header, on a disk of 16 blocks. */
static int run_calls(const char *image, const char *file) {
    tsd_capability cap, other;
    size_t length = 0;
    char bytes[8] = "", words[128];
    tsd_geometry geometry;
    tsd_answer answer;
    tsd_disk *disk = tsd_open(image, NULL);
    if (disk == NULL || !tsd_capability_from_file(&cap, file) || !tsd_capability_random(&other)) {
        return 1;
    }
    said("open", tsd_open_session(disk, 1), NULL, 0);
    said("write", tsd_write(disk, 1, 0, &cap, "hello", 5), NULL, 0);
    said("read", tsd_read(disk, 1, 0, &cap, bytes, sizeof bytes, &length), NULL, 0);
    printf("%s of %zu\n", bytes, length);
    call_of_pointers(disk, &cap);
    said("set", tsd_set_capabilities(disk, 1, 0, &cap, &other, &other), NULL, 0);
    said("refused", tsd_write(disk, 1, 0, &cap, NULL, 0), NULL, 0);
    tsd_refusal refusal = tsd_refusal_of(disk);
    printf("%s\n", tsd_refusal_words(&refusal, words, sizeof words));
    static const uint8_t many[70000];
    said("more than a frame has room for", tsd_write(disk, 1, 0, &other, many, sizeof many), NULL, 0);
    printf("%s\n", rules[tsd_refusal_of(disk).rule]);
    said("geometry", tsd_get_geometry(disk, &geometry), NULL, 0);
    said("nothing to take", tsd_take(disk, &answer), NULL, 0);
    tsd_send(disk, &(tsd_request){.code = TSD_GET_FREE});
    said("busy", tsd_close_session(disk, 1), NULL, 0);
    said("taken", tsd_take(disk, &answer), NULL, 0);
    said("held", tsd_hold(disk) && tsd_hold(disk) ? TSD_OK : TSD_NO_MEMORY, NULL, 0);
    tsd_send(disk, &(tsd_request){.code = TSD_GET_FREE});
    said("released", tsd_release(disk), NULL, 0);
    said("taken", tsd_take(disk, &answer), NULL, 0);
    said("nothing has come", tsd_has_come(disk), NULL, 0);
    tsd_send(disk, &(tsd_request){.code = TSD_GET_FREE});
    while (!tsd_has_come(disk)) {
        poll(&(struct pollfd){.fd = tsd_stream(disk), .events = POLLIN}, 1, LINK_LIMIT_MS);
    }
    said("a reply has come", tsd_has_come(disk), NULL, 0);
    said("taken", tsd_take(disk, &answer), NULL, 0);
    said("equal", tsd_capability_equal(&cap, &cap), NULL, 0);
    said("not equal", tsd_capability_equal(&cap, &other), NULL, 0);
    tsd_capability_wipe(&cap);
    tsd_capability_wipe(&other);
    said("close session", tsd_close_session(disk, 1), NULL, 0);
    said("close", tsd_close(disk, NULL), NULL, 0);
    return 0;
}

int main(int count, char **words) {
    const tsd_options patient = {.limit_ms = LINK_LIMIT_MS};
    bool is_link = count == 4 && strcmp(words[1], "link") == 0;
    const char *const *rest = (const char *const *)words + (is_link ? 2 : 1);
    if (count == 2 && strcmp(words[1], "replies") == 0) {
        return run_replies();
    }
    if (count < 3) {
        return 2;
    }
    if (strcmp(rest[0], "calls") == 0) {
        return run_calls(rest[1], rest[2]);
    }
    const tsd_options faked = {.program = rest[1], .limit_ms = LINK_LIMIT_MS};
    tsd_disk *disk = strcmp(rest[0], "hub") == 0 ? tsd_connect(rest[1], &patient)
                                                 : tsd_open(is_link ? "x" : rest[1], is_link ? &faked : &patient);
    if (disk == NULL) {
        printf("not opened: %s\n", strerror(errno));
        return 1;
    }
    return is_link ? run_link(disk) : run_lines(disk, count > 3 ? words[3] : NULL);
}
