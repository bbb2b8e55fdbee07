/* A recall box in small, in C: box CAPTURE [SEED], with samples/capture.bin for CAPTURE.
 *
 *     gcc -std=c99 -Wall -Wextra -Iinclude examples/box.c target/staticlib/libwing_c.a -o target/box
 *
 * A child process on 127.0.0.1 plays the console and sends the capture in pieces of random length. The box (show) keeps what it reads,
 * sets some strips and recalls everything into a second box, a child too, over TCP. The second box sends its table back, and the first
 * compares. Status 1 if the second has not the same values, all as the console's, if the first does not know the strips that were set
 * there, if the console did not get them as they were set, or if anything else fails. It ends within 20 seconds, whatever happens.
 */
#define _POSIX_C_SOURCE 200809L
#include "wing.h"

#include <arpa/inet.h>
#include <netinet/in.h>
#include <signal.h>
#include <stdio.h>
#include <stdlib.h>
#include <string.h>
#include <sys/socket.h>
#include <sys/wait.h>
#include <time.h>
#include <unistd.h>

#define PLACES 128
#define SECONDS 20

/* What the engineer sets. */
static const char NAME[] = "Sprecherin";
static const float LEVEL = -6.5f;
static const int32_t ON = 1;

/* A mirror is three things that the box keeps. */
typedef struct Mirror {
    uint8_t state[WING_STATE_SIZE];
    uint8_t table[PLACES * WING_PLACE_WIDTH];
    size_t count;
} Mirror;

/* A call of the system failed; errno says why. */
static void fail(const char *what)
{
    perror(what);
    exit(1);
}

/* Anything else. */
static void stop(const char *what, const char *why)
{
    fprintf(stderr, "%s: %s\n", what, why);
    exit(1);
}

/* A status below 0 is a refusal. */
static void check(int32_t status, const char *call)
{
    if (status < 0) {
        fprintf(stderr, "%s: refusal %d\n", call, -status);
        exit(1);
    }
}

static void start(Mirror *m)
{
    check(wing_state_fresh(m->state, sizeof m->state).status, "wing_state_fresh");
    m->count = 0;
}

static void send_all(int to, const uint8_t *bytes, size_t len)
{
    while (len > 0) {
        ssize_t n = write(to, bytes, len);
        if (n < 0)
            fail("write");
        bytes += n;
        len -= (size_t)n;
    }
}

static void close_it(int s)
{
    if (close(s) != 0)
        fail("close");
}

static void end_writing(int s)
{
    if (shutdown(s, SHUT_WR) != 0)
        fail("shutdown");
}

static uint32_t bits_of(float x)
{
    uint32_t bits;
    memcpy(&bits, &x, sizeof bits);
    return bits;
}

/* Feeds what comes until the other side hangs up. */
static void listen_to(int from, Mirror *m)
{
    uint8_t bytes[700];
    ssize_t n;
    while ((n = read(from, bytes, sizeof bytes)) > 0) {
        WingFed fed = wing_feed(m->state, sizeof m->state, m->table, sizeof m->table, m->count, bytes, (size_t)n);
        check(fed.status, "wing_feed");
        m->count = fed.count;
        if (fed.unplaced > 0)
            fprintf(stderr, "%u values have no place\n", (unsigned)fed.unplaced);
    }
    if (n < 0)
        fail("read");
}

/* A set order's bytes go to the console; the value is stored. */
static void send_set(int console, Mirror *m, WingSet set, const uint8_t *order)
{
    check(set.status, "wing_set");
    m->count = set.count;
    send_all(console, order, set.len);
}

static int connect_to(struct sockaddr_in address)
{
    int s = socket(AF_INET, SOCK_STREAM, 0);
    if (s < 0 || connect(s, (struct sockaddr *)&address, sizeof address) != 0)
        fail("connect");
    return s;
}

/* The box: from connect to recall. Returns the connection to the second box. */
static int show(Mirror *m, struct sockaddr_in console_at, struct sockaddr_in second_at)
{
    uint8_t order[WING_SET_STRING_MAX];
    uint8_t recall[WING_RECALL_MAX(PLACES)];
    const uint8_t start_bytes[] = {0xdf, 0xd1};
    int console = connect_to(console_at);
    send_all(console, start_bytes, sizeof start_bytes);
    WingWritten asked = wing_request_node_data(order, sizeof order, 0);
    check(asked.status, "wing_request_node_data");
    send_all(console, order, asked.len);

    start(m);
    listen_to(console, m); /* this console hangs up; a real one goes on, and so does the box */

    /* The engineer sets some strips: each is stored here and sent to the console. */
    send_set(console, m,
             wing_set_string(m->table, sizeof m->table, m->count, order, sizeof order, 1000, (const uint8_t *)NAME, strlen(NAME)),
             order);
    send_set(console, m, wing_set_float(m->table, sizeof m->table, m->count, order, sizeof order, 2000, bits_of(LEVEL)), order);
    send_set(console, m, wing_set_int(m->table, sizeof m->table, m->count, order, sizeof order, 3000, ON), order);
    close_it(console);

    /* Between two shows: everything goes to another console, or as here to a second box. */
    int second = connect_to(second_at);
    WingWritten sent = wing_recall(m->table, sizeof m->table, m->count, recall, sizeof recall);
    check(sent.status, "wing_recall");
    send_all(second, recall, sent.len);
    end_writing(second);
    return second;
}

/* Whether a record is this one; a number's string is empty, and a string's number 0. */
static int is_record(const Mirror *m, size_t number, int32_t id, uint8_t kind, uint32_t value, const char *string)
{
    WingRecord r = wing_record(m->table, sizeof m->table, m->count, number);
    check(r.status, "wing_record");
    return r.id == id && r.kind == kind && r.value == value && r.len == strlen(string) && memcmp(r.string, string, r.len) == 0;
}

/* The console: it waits for the request, sends the capture in pieces, and then hears what is set. */
static int play(int box, const uint8_t *capture, size_t len, unsigned seed)
{
    static Mirror heard;
    uint8_t asked[4];
    for (size_t got = 0; got < sizeof asked;) {
        ssize_t n = read(box, asked + got, sizeof asked - got);
        if (n < 0)
            fail("read");
        if (n == 0)
            stop("the console", "the box hung up before it had asked");
        got += (size_t)n;
    }
    for (size_t at = 0; at < len;) {
        struct timespec wait = {0, 100000};
        seed = seed * 1103515245u + 12345u;
        size_t piece = 1 + seed / 65536 % 40;
        piece = piece < len - at ? piece : len - at;
        send_all(box, capture + at, piece);
        at += piece;
        nanosleep(&wait, NULL);
    }
    end_writing(box);
    start(&heard);
    listen_to(box, &heard);
    return heard.count == 3 && is_record(&heard, 0, 1000, WING_KIND_STRING, 0, NAME) &&
                   is_record(&heard, 1, 2000, WING_KIND_FLOAT, bits_of(LEVEL), "") &&
                   is_record(&heard, 2, 3000, WING_KIND_INTEGER, (uint32_t)ON, "")
               ? 0
               : 1;
}

/* The second box: it takes the recall, and sends back the records that it holds. */
static int hold(int box)
{
    static Mirror m;
    start(&m);
    listen_to(box, &m);
    send_all(box, m.table, m.count * WING_PLACE_WIDTH);
    return 0;
}

/* A child that answers one connection, at a port that the system chooses. */
static pid_t serve(struct sockaddr_in *at, const uint8_t *capture, size_t len, unsigned seed)
{
    socklen_t size = sizeof *at;
    int listener = socket(AF_INET, SOCK_STREAM, 0);
    memset(at, 0, sizeof *at);
    at->sin_family = AF_INET;
    at->sin_addr.s_addr = htonl(INADDR_LOOPBACK);
    if (listener < 0 || bind(listener, (struct sockaddr *)at, sizeof *at) != 0 || listen(listener, 1) != 0 ||
        getsockname(listener, (struct sockaddr *)at, &size) != 0)
        fail("listen");
    pid_t child = fork();
    if (child < 0)
        fail("fork");
    if (child == 0) {
        alarm(SECONDS);
        int box = accept(listener, NULL, NULL);
        if (box < 0)
            fail("accept");
        close_it(listener);
        int status = capture != NULL ? play(box, capture, len, seed) : hold(box);
        close_it(box);
        exit(status);
    }
    close_it(listener);
    return child;
}

static int ended_well(pid_t child)
{
    int status;
    return waitpid(child, &status, 0) == child && WIFEXITED(status) && WEXITSTATUS(status) == 0;
}

/* How many records' values were set at the box, by set orders. */
static size_t moved(const Mirror *m)
{
    size_t found = 0;
    for (size_t number = 0; number < m->count; number++)
        found += wing_record(m->table, sizeof m->table, m->count, number).origin == WING_ORIGIN_SET_ORDER;
    return found;
}

/* Whether two records have the same node and value, the second as the console's: a recall does not say who gave a value. */
static int is_rebuilt(const WingRecord *first, const WingRecord *second)
{
    check(first->status, "wing_record");
    check(second->status, "wing_record");
    return second->id == first->id && second->kind == first->kind && second->value == first->value && second->len == first->len &&
           memcmp(second->string, first->string, sizeof first->string) == 0 && second->origin == WING_ORIGIN_CONSOLE;
}

/* Whether the records that the second box sends until it hangs up are those of the first, but for the origins. */
static int has_values(int second, const Mirror *m)
{
    static uint8_t table[PLACES * WING_PLACE_WIDTH];
    size_t len = 0;
    ssize_t n = 1;
    while (len < sizeof table && (n = read(second, table + len, sizeof table - len)) > 0)
        len += (size_t)n;
    if (n < 0)
        fail("read");
    if (len % WING_PLACE_WIDTH != 0)
        stop("the second box", "it sent a part of a record");
    size_t count = len / WING_PLACE_WIDTH;
    int same = count == m->count;
    for (size_t number = 0; same && number < count; number++) {
        WingRecord ours = wing_record(m->table, sizeof m->table, m->count, number);
        WingRecord theirs = wing_record(table, sizeof table, count, number);
        same = is_rebuilt(&ours, &theirs);
    }
    return same;
}

/* The bytes of a file, 1 to so many. */
static size_t read_file(const char *name, uint8_t *bytes, size_t most)
{
    FILE *file = fopen(name, "rb");
    if (file == NULL)
        fail(name);
    size_t len = fread(bytes, 1, most, file);
    int more = len == most && fgetc(file) != EOF;
    if (ferror(file))
        fail(name);
    if (len == 0)
        stop(name, "the file is empty");
    if (more)
        stop(name, "the file is too long");
    if (fclose(file) != 0)
        fail(name);
    return len;
}

int main(int argc, char **argv)
{
    static Mirror mirror;
    static uint8_t capture[WING_FEED_MAX];
    struct sockaddr_in console_at, second_at;
    if (argc < 2)
        stop("usage", "box CAPTURE [SEED]");
    size_t len = read_file(argv[1], capture, sizeof capture);
    signal(SIGPIPE, SIG_IGN); /* a write to one who has hung up is an error, not the end */
    alarm(SECONDS);
    pid_t console = serve(&console_at, capture, len, argc > 2 ? (unsigned)atoi(argv[2]) : 1);
    pid_t second = serve(&second_at, NULL, 0, 0);
    int answers = show(&mirror, console_at, second_at);
    int rebuilt = has_values(answers, &mirror);
    close_it(answers);
    int heard = ended_well(console);
    int held = ended_well(second);
    if (!rebuilt || !heard || !held) {
        fprintf(stderr, "the second box has %s values, the console %s the strips\n", rebuilt && held ? "the same" : "other",
                heard ? "heard" : "did not hear");
        return 1;
    }
    if (moved(&mirror) != 3)
        stop("the box", "it does not know which strips were set there");
    printf("%zu records, %zu of them set at the box, and the second box has the same values\n", mirror.count, moved(&mirror));
    return 0;
}
