/* How many bytes of stack the calls use in a run: each is made on a stack of its own that was painted before, and what
 * is no longer paint was written. Prints a line `NAME BYTES` for the greatest use of each call, its return address with
 * it, which tools/stack compares with what the machine code says; to stderr the sizes of what goes in and out by value.
 * Ends with 1 where a call does not do what it should, or where spacing over 4,096 entries takes another amount of
 * stack than over four. */
#include "../../include/mossgoblin.h"
#include "wire.h"

#include <stdio.h>
#include <stdlib.h>
#include <string.h>
#include <ucontext.h>

#define ENTRIES 4096

static uint8_t small[16 + 4 * 8 + 4096], large[16 + ENTRIES * 8 + ENTRIES];
static uint8_t out[MOSSGOBLIN_OUTPUT], dest[1024], stream[1024], variables[MOSSGOBLIN_STORE_LENGTH];
static uint8_t *image = small;
static size_t image_len = sizeof small;
static struct mossgoblin_session session;

/* ---- a call, or one of the same form that does nothing: what both use is the caller's */
#pragma GCC diagnostic ignored "-Wunused-parameter"
static struct mossgoblin_answer no_request(struct mossgoblin_session s, const uint8_t *a, size_t a_len,
                                           const uint8_t *challenge, const uint8_t *list, size_t list_len, bool made,
                                           uint8_t *i, size_t i_len, uint8_t *v, size_t v_len, const uint8_t *input,
                                           size_t input_len, uint32_t time, uint8_t *o, size_t o_len)
{
    return (struct mossgoblin_answer){0};
}

static struct mossgoblin_answer no_rmt(struct mossgoblin_session s, uint8_t *i, size_t i_len, const uint8_t *command,
                                       size_t command_len, uint8_t *o, size_t o_len)
{
    return (struct mossgoblin_answer){0};
}

static struct mossgoblin_moved no_to_tape(struct mossgoblin_session s, uint8_t *i, size_t i_len, const uint8_t *from,
                                          size_t from_len, bool end, uint32_t time, uint8_t *o, size_t o_len)
{
    return (struct mossgoblin_moved){0};
}

static struct mossgoblin_moved no_from_tape(struct mossgoblin_session s, const uint8_t *i, size_t i_len, uint8_t *to,
                                            size_t to_len, uint32_t time, uint8_t *o, size_t o_len)
{
    return (struct mossgoblin_moved){0};
}

static struct mossgoblin_answer no_event(struct mossgoblin_session s, bool mover, uint32_t time, uint8_t *o,
                                         size_t o_len)
{
    return (struct mossgoblin_answer){0};
}

static struct mossgoblin_addresses no_addresses(const uint8_t *input, size_t input_len)
{
    return (struct mossgoblin_addresses){0};
}

static struct mossgoblin_listed no_accounts(const uint8_t *a, size_t a_len, uint8_t *o, size_t o_len)
{
    return (struct mossgoblin_listed){0};
}

static __typeof__(mossgoblin_request) *volatile request;
static __typeof__(mossgoblin_rmt) *volatile rmt;
static __typeof__(mossgoblin_move_to_tape) *volatile to_tape;
static __typeof__(mossgoblin_move_from_tape) *volatile from_tape;
static __typeof__(mossgoblin_made) *volatile event;
static __typeof__(mossgoblin_addresses) *volatile reader;
static __typeof__(mossgoblin_accounts) *volatile lister;

/* What a listen by TCP is lent: one address with the pair of A and 1. */
static const uint8_t list[] = {0, 0, 0, 1, 10, 0, 0, 1, 0, 0, 39, 16, 0, 0, 0, 1,
                               0, 0, 0, 1, 'A', 0, 0, 0, 0, 0, 0, 1, '1', 0, 0, 0};
static uint8_t record[RECORD];
static const char *command;
static size_t record_len, stream_len;
static bool last, of_mover;
static struct mossgoblin_answer answer;
static struct mossgoblin_moved moved;
static struct mossgoblin_addresses given;
static struct mossgoblin_listed lines;

static void do_request(void)
{
    answer = request(session, accounts, sizeof accounts, given_challenge, list, sizeof list, true, image, image_len,
                     variables, sizeof variables, record, record_len, 0, out, sizeof out);
}

static void do_rmt(void)
{
    answer = rmt(session, image, image_len, (const uint8_t *)command, strlen(command), out, sizeof out);
}

static void do_event(void)
{
    answer = event(session, of_mover, 0, out, sizeof out);
}

static void do_reader(void)
{
    given = reader(record, record_len);
}

static void do_lister(void)
{
    lines = lister(accounts, sizeof accounts, out, sizeof out);
}

static void do_to_tape(void)
{
    moved = to_tape(session, image, image_len, stream, stream_len, last, 0, out, sizeof out);
}

static void do_from_tape(void)
{
    moved = from_tape(session, image, image_len, dest, sizeof dest, 0, out, sizeof out);
}

/* ---- painting, by words: a byte of an address may be any */
#define PAINT 0xA5A5A5A5A5A5A5A5u
#define WORDS 8192

static uint64_t stack[WORDS] __attribute__((aligned(16)));
static ucontext_t host, guest;
static void (*job)(void);

static void enter(void)
{
    job();
}

static size_t written(void (*f)(void))
{
    for (size_t i = 0; i < WORDS; i++)
        stack[i] = PAINT;
    job = f;
    getcontext(&guest);
    guest.uc_stack.ss_sp = stack;
    guest.uc_stack.ss_size = sizeof stack;
    guest.uc_link = &host;
    makecontext(&guest, enter, 0);
    swapcontext(&host, &guest);
    size_t i = 0;
    while (i < WORDS && stack[i] == PAINT)
        i++;
    return (WORDS - i) * sizeof *stack;
}

/* ---- the calls, each with the greatest use so far */
static size_t most_request, most_rmt, most_to_tape, most_from_tape, most_made, most_lost, most_addresses, most_accounts;

static size_t beyond(size_t with, size_t without, size_t *most)
{
    size_t use = with - without + sizeof(void *);
    if (use > *most)
        *most = use;
    return use;
}

static void check(bool holds, const char *what)
{
    if (!holds) {
        fprintf(stderr, "stack: %s\n", what);
        exit(1);
    }
}

/* A request whose body is words; its reply has the error at a place. */
static size_t ask(uint32_t error, uint32_t at, uint32_t message, const uint32_t *body, size_t words)
{
    record_len = put_request(record, message, body, words);
    request = no_request;
    size_t without = written(do_request);
    request = mossgoblin_request;
    size_t use = beyond(written(do_request), without, &most_request);
    if (answer.code != 0 || answer.len < 32 || word(out + 24) != 0 || word(out + at) != error) {
        fprintf(stderr, "stack: 0x%X is not answered as it should be\n", message);
        exit(1);
    }
    session = answer.session;
    return use;
}

#define ASK_AT(at, message, ...)                                                   \
    do {                                                                           \
        const uint32_t body[] = {__VA_ARGS__};                                     \
        ask(0, at, message, body, sizeof body / sizeof *body);                     \
    } while (0)
#define ASK(message, ...) ASK_AT(28, message, __VA_ARGS__)

/* A command of rmt, whose reply begins so. */
static void say(const char *what, const char *reply)
{
    command = what;
    rmt = no_rmt;
    size_t without = written(do_rmt);
    rmt = mossgoblin_rmt;
    beyond(written(do_rmt), without, &most_rmt);
    check(answer.code == 0 && answer.len >= strlen(reply) && memcmp(out, reply, strlen(reply)) == 0, "a command is not answered as it should be");
    session = answer.session;
}

static size_t space(uint32_t op, uint32_t count, uint32_t error)
{
    const uint32_t body[] = {op, count};
    return ask(error, 28, 0x303, body, 2);
}

static void rewind_tape(void)
{
    space(4, 0, 0);
}

static void feed(size_t n, bool end)
{
    stream_len = n;
    last = end;
    to_tape = no_to_tape;
    size_t without = written(do_to_tape);
    to_tape = mossgoblin_move_to_tape;
    beyond(written(do_to_tape), without, &most_to_tape);
    session = moved.session;
}

static void fetch(void)
{
    from_tape = no_from_tape;
    size_t without = written(do_from_tape);
    from_tape = mossgoblin_move_from_tape;
    beyond(written(do_from_tape), without, &most_from_tape);
    session = moved.session;
}

/* Made or lost, of the mover or of the data end. */
static void happens(__typeof__(mossgoblin_made) *what, bool mover, size_t *most)
{
    of_mover = mover;
    event = no_event;
    size_t without = written(do_event);
    event = what;
    beyond(written(do_event), without, most);
    check(answer.code == 0, "an event is refused");
    session = answer.session;
}

/* The addresses of a connect whose body is words. */
static void look(uint32_t message, const uint32_t *body, size_t words)
{
    record_len = put_request(record, message, body, words);
    reader = no_addresses;
    size_t without = written(do_reader);
    reader = mossgoblin_addresses;
    beyond(written(do_reader), without, &most_addresses);
    check(given.count == 1 && given.ports[0] == 10000, "the reader does not give the address");
}

/* The accounts, listed: one by text, and one by MD5. */
static void list_accounts(void)
{
    lister = no_accounts;
    size_t without = written(do_lister);
    lister = mossgoblin_accounts;
    beyond(written(do_lister), without, &most_accounts);
    check(lines.code == 0 && lines.len == 12 + 6, "the accounts are not listed");
}

/* ---- the run */
/* Entries of one byte, and a mark at every second place. */
static void make_table(uint32_t n)
{
    uint32_t used = 0;
    put_word(image, 1);
    put_word(image + 4, n);
    put_word(image + 8, n);
    for (uint32_t e = 0; e < n; e++) {
        put_word(image + 16 + 8 * e, e % 2 == 0);
        put_word(image + 20 + 8 * e, used);
        used += e % 2 == 0;
    }
    put_word(image + 12, used);
}

/* From the start FSF to the end and past it, BSF back and past the start, then records and a mark each way. */
static size_t space_all(uint32_t n)
{
    /* op, count, and the error that is to come of it */
    const uint32_t walks[][3] = {{4, 0, 0},  {0, n / 2, 0}, {0, 1, 13}, {1, n / 2, 0}, {1, 1, 13},
                                 {2, 1, 0},  {2, 1, 12},    {3, 1, 12}, {3, 1, 0},     {3, 1, 13}};
    size_t most = 0;
    make_table(n);
    for (size_t i = 0; i < sizeof walks / sizeof *walks; i++) {
        size_t use = space(walks[i][0], walks[i][1], walks[i][2]);
        most = use > most ? use : most;
    }
    return most;
}

static size_t space_over_both(void)
{
    size_t over_four = space_all(4);
    image = large;
    image_len = sizeof large;
    size_t over_all = space_all(ENTRIES);
    image = small;
    image_len = sizeof small;
    check(over_all == over_four, "spacing over 4,096 entries takes another amount of stack than over four");
    return over_all;
}

static void log_in(void)
{
    static const uint32_t slots[MOSSGOBLIN_PLACES] = {1, 0, 2};
    session = mossgoblin_open(slots, 0, out, sizeof out).session;
    ASK(0x900, 4);
    ASK(0x108);
    ASK(0x103, 2);
    ASK(0x901, MD5_LOGIN);
    ASK(0x102);
    ASK(0x108);
    make_table(4);
    ASK(0x300, 5, 0x74617065, 0x30000000, 1);
}

/* The status of all elements, a move that is refused, one from slot to slot, and the tape off line and open again. */
static void change(void)
{
    ASK(0x200, 8, 0x6368616E, 0x67657230);
    ASK(0x206, 0, 0, 152, 12, 0xB8000000, 0x000A0000, 0x00980000, 0);
    check(answer.len == 28 + 16 + 152 + 4, "the status of the elements is not whole");
    ASK(0x206, 0, 0, 0, 12, 0xA5000000, 0x00010010, 0, 0);
    check(session.changer.slots[0] == 1, "the drive is changed while the tape is open");
    ASK(0x206, 0, 0, 0, 12, 0xA5000000, 0x00110010, 0, 0);
    check(session.changer.slots[1] == 2 && session.changer.slots[2] == 0, "nothing is moved from slot to slot");
    space(6, 0, 0);
    check(!session.tape.opened, "the tape is not off line");
    ASK(0x300, 5, 0x74617065, 0x30000000, 1);
}

/* A record by the client itself, then two of a stream to the window's end, and the end of the stream. */
static void back_up(void)
{
    rewind_tape();
    ASK(0x304, 4, 0x61626364);
    ASK_AT(32, 0x302);
    rewind_tape();
    ASK(0xA08, 1024);
    ASK(0xA05, 0, 0, 0, 2048);
    ASK(0xA01, 0, 0);
    ASK(0x40A, 0);
    ASK(0x401, 4, 0x64756D70, 2, 1, 0x41000000, 1, 0x31000000, 0, 0);
    ASK(0x404);
    for (int i = 0; i < 3; i++)
        feed(sizeof stream, false);
    check(session.mover.state == 3, "the backup does not pause");
    ASK(0xA05, 0, 2048, 0, 1024);
    ASK(0xA02);
    feed(0, true);
    check(session.mover.state == 4 && session.source.state == 2, "the backup does not halt");
    ASK(0x407);
    ASK(0xA04);
}

/* The tape by rmt: closed, opened, every operation, a write and a read; commands that do not read or are refused; and open again for the rest. */
static void by_rmt(void)
{
    say("Ctape0\n", "A0\n");
    say("R1\n", "E6\n");
    say("S\n", "E22\n");
    say("Otape0\n2\n", "A0\n");
    say("W5\nHELLO", "A5\n");
    say("I0\n1\n", "A0\n");
    say("I4\n1\n", "E5\n");
    say("I2\n4294967295\n", "E5\n");
    say("I3\n1\n", "A0\n");
    say("I1\n1\n", "A0\n");
    say("I5\n0\n", "A0\n");
    say("R32768\n", "A5\nHELLO");
    say("I5\n0\n", "A0\n");
}

/* A record to the client itself, then one of the stream, and a damaged image. */
static void recover(void)
{
    rewind_tape();
    ASK(0x305, 32768);
    rewind_tape();
    ASK(0xA05, 0, 0, 0, 2048);
    ASK(0xA01, 1, 0);
    ASK(0x40A, 0);
    ASK(0x402, 1, 1, 0x41000000, 1, 0x31000000, 0, 4, 0x64756D70);
    ASK(0xA06, 0, 0, 0, 2048);
    fetch();
    check(moved.count == 1024, "the recover hands nothing over");
    image[3] ^= 4;
    fetch();
    check(session.mover.state == 4 && session.source.state == 2, "the recover does not halt");
    ASK(0x404);
}

/* A mover that listens and a data end that connects by TCP, each made and lost; and the other way round. */
static void by_tcp(void)
{
    const uint32_t connect[] = {1, 1, 1, 0x0A000001, 10000, 1, 1, 0x41000000, 1, 0x31000000};
    ASK(0x407);
    ASK(0xA04);
    ASK(0xA05, 0, 0, 0, 1024);
    ASK(0xA01, 1, 1);
    ASK(0xA00);
    happens(mossgoblin_made, true, &most_made);
    look(0x40A, connect + 1, 9);
    ask(0, 28, 0x40A, connect + 1, 9);
    ASK_AT(32, 0x400);
    check(session.mover.state == 2 && session.source.state == 4, "the ends are not joined by TCP");
    happens(mossgoblin_lost, true, &most_lost);
    happens(mossgoblin_lost, false, &most_lost);
    check(session.mover.state == 4 && session.source.state == 2, "the ends by TCP do not halt");
    ASK(0x407);
    ASK(0xA04);
    ASK(0x409, 1);
    happens(mossgoblin_made, false, &most_made);
    ASK(0xA05, 0, 0, 0, 1024);
    look(0xA09, connect, 10);
    ask(0, 28, 0xA09, connect, 10);
    check(session.mover.state == 2 && session.source.state == 4, "the ends are not joined by TCP the other way round");
}

int main(void)
{
    log_in();
    change();
    size_t spacing = space_over_both();
    by_rmt();
    back_up();
    recover();
    by_tcp();
    list_accounts();
    printf("mossgoblin_request %zu\n", most_request);
    printf("mossgoblin_rmt %zu\n", most_rmt);
    printf("mossgoblin_move_to_tape %zu\n", most_to_tape);
    printf("mossgoblin_move_from_tape %zu\n", most_from_tape);
    printf("mossgoblin_made %zu\n", most_made);
    printf("mossgoblin_lost %zu\n", most_lost);
    printf("mossgoblin_addresses %zu\n", most_addresses);
    printf("mossgoblin_accounts %zu\n", most_accounts);
    fprintf(stderr, "a session has %zu bytes, an answer %zu, what a move returns %zu, a list of addresses %zu\n",
            sizeof session, sizeof answer, sizeof moved, sizeof given);
    fprintf(stderr, "a spacing call takes %zu bytes of stack, over four entries and over 4,096\n", spacing);
    return 0;
}
