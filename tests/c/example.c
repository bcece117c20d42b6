/* A login by MD5, logins by text, which are refused, and the accounts listed. Cartridges that are moved from place to place. Then a backup of 3,000 bytes in records of 1,024, from C: the examples g, h and i
 * of the rules, with a variable that is given back. Then ends by TCP: a record that comes to the mover from a peer, and a data end that connects to one, with
 * more variables than fit. Then the same tape by commands of rmt. Each step is checked, and the first that is not as the rules say ends the program with 1. */
#include "../../include/mossgoblin.h"
#include "wire.h"

#include <stdio.h>
#include <stdlib.h>
#include <string.h>

static uint8_t image[16 + 4 * 8 + 4096];
static uint8_t variables[MOSSGOBLIN_STORE_LENGTH];
static uint8_t out[MOSSGOBLIN_OUTPUT];
static struct mossgoblin_session session;
static uint8_t stream[3000];

/* One cartridge, in the drive. */
static const uint32_t one_cartridge[MOSSGOBLIN_PLACES] = {1};

/* What a host lends to a listen: one address, 10.0.0.1 and port 10,000, with no pairs. */
static const uint8_t one_address[] = {0, 0, 0, 1, 10, 0, 0, 1, 0, 0, 39, 16, 0, 0, 0, 0};

/* The most words of a body here: a start whose one pair is too long for the store. */
#define LONG_BODY (6 + MOSSGOBLIN_STORE_LENGTH / 4)

static void check(bool holds, const char *what)
{
    if (!holds) {
        printf("not as the rules say: %s\n", what);
        exit(1);
    }
    printf("%s\n", what);
}

/* A request whose body is words, lent a list of addresses and whether a connection was made; its reply has the error. Gives the reply's length. */
static size_t ask_lent(const char *what, uint32_t error, const uint8_t *list, size_t list_len, bool made, uint32_t message, const uint32_t *body,
                       size_t words)
{
    static uint8_t record[28 + 4 * LONG_BODY];
    size_t n = put_request(record, message, body, words);
    struct mossgoblin_answer a = mossgoblin_request(session, accounts, sizeof accounts, given_challenge, list, list_len, made, image, sizeof image,
                                                    variables, sizeof variables, record, n, 0, out, sizeof out);
    check(a.code == 0 && a.len >= 32 && word(out + 24) == 0 && word(out + 28) == error, what);
    session = a.session;
    return a.len;
}

/* The same, lent no list and no connection; its reply's error is 0. */
static size_t ask(const char *what, uint32_t message, const uint32_t *body, size_t words)
{
    return ask_lent(what, 0, NULL, 0, false, message, body, words);
}

#define ASK(what, message, ...)                                                     \
    do {                                                                            \
        const uint32_t body[] = {__VA_ARGS__};                                      \
        ask(what, message, body, sizeof body / sizeof *body);                       \
    } while (0)

/* The bytes of a login by MD5 that a real client sent, in a session of its own: refused before a challenge, and right with the one that it was given. */
static void by_md5(void)
{
    const uint32_t login[] = {MD5_LOGIN}, by_md5[] = {2}, by_text[] = {1}, by_three[] = {3};
    const uint32_t text_of_md5[] = {1, 4, 0x6E646D70, 4, 0x6E646D70}, text_of_text[] = {1, 1, 0x76000000, 2, 0x70770000};
    uint32_t wrong[] = {MD5_LOGIN};
    session = mossgoblin_open(one_cartridge, 0, out, sizeof out).session;
    check(!session.login.authorized && !session.login.challenged, "a new session has no login, and no challenge");
    ask_lent("client auth by MD5 before a challenge is 4", 4, NULL, 0, false, 0x901, login, 7);
    size_t n = ask_lent("auth attributes of type 1 are 9", 9, NULL, 0, false, 0x103, by_text, 1);
    check(n == 36 && word(out + 32) == 0 && !session.login.challenged, "with no type, and no challenge");
    n = ask_lent("auth attributes of type 3 are 9", 9, NULL, 0, false, 0x103, by_three, 1);
    check(n == 36 && word(out + 32) == 0, "with no type");
    n = ask("auth attributes of type 2", 0x103, by_md5, 1);
    check(n == 36 + MOSSGOBLIN_CHALLENGE && word(out + 32) == 2 && memcmp(out + 36, given_challenge, MOSSGOBLIN_CHALLENGE) == 0,
          "they are the type, and the challenge that was lent");
    check(session.login.challenged && memcmp(session.login.challenge, given_challenge, MOSSGOBLIN_CHALLENGE) == 0, "the session keeps it");
    wrong[6] ^= 1;
    ask_lent("client auth by MD5 with another digest is 4", 4, NULL, 0, false, 0x901, wrong, 7);
    ask_lent("client auth by text is 9, with the right password of an account by MD5", 9, NULL, 0, false, 0x901, text_of_md5, 5);
    ask_lent("and of an account by text, which lets nobody in", 9, NULL, 0, false, 0x901, text_of_text, 5);
    check(!session.login.authorized && session.login.challenged, "nobody has logged in, and the challenge stays");
    ask("client auth by MD5", 0x901, login, 7);
    check(session.login.authorized, "the client has logged in");
    ask_lent("client auth by text is 9 then too", 9, NULL, 0, false, 0x901, by_text, 1);
    check(session.login.authorized, "and takes nothing away");
}

/* Lists accounts into an output of 97 bytes that are all x, and compares all of it: these lines, then every x that was there. */
static void listed(const char *what, const uint8_t *list, size_t list_len, const char *lines)
{
    static uint8_t to[MOSSGOBLIN_LEAST_LISTING + 1], wanted[sizeof to];
    memset(to, 'x', sizeof to);
    memset(wanted, 'x', sizeof wanted);
    memcpy(wanted, lines, strlen(lines));
    struct mossgoblin_listed l = mossgoblin_accounts(list, list_len, to, sizeof to);
    check(l.code == 0 && l.len == strlen(lines) && memcmp(to, wanted, sizeof to) == 0, what);
}

/* The accounts of all logins here, then none, a buffer that is cut, and eight by text, which fill the least output; and an output that is a byte shorter. */
static void listings(void)
{
    const uint8_t none[4] = {0};
    uint8_t eight[4 + 8 * 12] = {0, 0, 0, 8}, to[MOSSGOBLIN_LEAST_LISTING];
    for (size_t i = 0; i < 8; i++)
        put_word(eight + 4 + 12 * i, 1);
    listed("a line for each account: its number, and its kind", accounts, sizeof accounts, "0 withdrawn\n1 md5\n");
    listed("no account, no line", none, sizeof none, "");
    listed("a buffer that is cut has no line", accounts, sizeof accounts - 1, "");
    listed("eight accounts by text", eight, sizeof eight,
           "0 withdrawn\n1 withdrawn\n2 withdrawn\n3 withdrawn\n4 withdrawn\n5 withdrawn\n6 withdrawn\n7 withdrawn\n");
    memset(to, 'x', sizeof to);
    struct mossgoblin_listed l = mossgoblin_accounts(accounts, sizeof accounts, to, sizeof to - 1);
    check(l.code == 1001 && l.len == 0 && to[0] == 'x', "a listing into 95 bytes is refused, and nothing is written");
    l = mossgoblin_accounts(eight, sizeof eight, to, sizeof to);
    check(l.code == 0 && l.len == sizeof to && to[sizeof to - 1] == '\n', "into 96 bytes it is not, and ends with its last line");
}

#define TAPE0 5, 0x74617065, 0x30000000
#define CHANGER0 8, 0x6368616E, 0x67657230

/* MOVE MEDIUM: error 0, and this status; with status 2 the extended sense has this code and qualifier. */
static void moves(const char *what, uint32_t from, uint32_t to, uint32_t status, uint8_t code, uint8_t qualifier)
{
    const uint32_t body[] = {0, 0, 0, 12, 0xA5000000, from << 16 | to, 0, 0};
    const size_t n = ask(what, 0x206, body, 8);
    if (status == 0)
        check(n == 48 && word(out + 32) == 0 && word(out + 40) == 0 && word(out + 44) == 0, "with status 0, and no sense");
    else
        check(n == 68 && word(out + 32) == 2 && word(out + 44) == 18 && out[48] == 0x70 && out[50] == 5 && out[60] == code && out[61] == qualifier,
              "with status 2, and its sense");
}

/* 7 in the drive and 3 in slot 17: what holds the tape holds the drive too; then the two change their places. */
static void changer(void)
{
    uint32_t slots[MOSSGOBLIN_PLACES] = {7, 0, 3, 0, 0, 0, 0, 0, 7};
    const uint32_t tape[] = {TAPE0, 1}, login[] = {MD5_LOGIN}, by_md5[] = {2}, name[] = {CHANGER0}, off[] = {6, 0};
    /* all elements from address 0 on, and 152 bytes of them */
    const uint32_t elements[] = {0, 0, 152, 12, 0xB8000000, 0x000A0000, 0x00980000, 0};
    struct mossgoblin_answer a = mossgoblin_open(slots, 0, out, sizeof out);
    check(a.code == 1002 && a.len == 0 && a.session.closed && a.session.changer.slots[0] == 0, "open: a list that names a cartridge twice is refused");
    slots[8] = 0;
    session = mossgoblin_open(slots, 0, out, sizeof out).session;
    check(memcmp(session.changer.slots, slots, sizeof slots) == 0, "a session has the list that it was opened with");
    ask("auth attributes", 0x103, by_md5, 1);
    ask("client auth", 0x901, login, 7);
    ask("tape open", 0x300, tape, 4);
    ask("changer open", 0x200, name, 3);
    moves("from the drive while the tape is open is refused", 1, 16, 2, 0x53, 0x02);
    moves("into a full drive is refused", 17, 1, 2, 0x3B, 0x0D);
    moves("from an empty slot is refused", 16, 18, 2, 0x3B, 0x0E);
    moves("to an element that is none is refused", 17, 24, 2, 0x21, 0x01);
    check(memcmp(session.changer.slots, slots, sizeof slots) == 0, "the list is as it was");
    size_t n = ask("MTIO 6", 0x303, off, 2);
    check(n == 36 && word(out + 32) == 0 && !session.tape.opened && session.changer.slots[0] == 7, "the tape is closed, and its cartridge in the drive");
    moves("from the drive to slot 16", 1, 16, 0, 0, 0);
    check(session.changer.slots[0] == 0 && session.changer.slots[1] == 7 && session.changer.slots[2] == 3, "7 is in slot 16");
    ask_lent("tape open with an empty drive is 10", 10, NULL, 0, false, 0x300, tape, 4);
    n = ask("element status", 0x206, elements, 8);
    check(n == 28 + 16 + 152 + 4 && word(out + 40) == 152 && word(out + 44) == 10 && word(out + 48) == 144, "ten elements, in 144 bytes behind the first eight");
    /* behind the eight come the pages of the transport (20 bytes), the drive (20) and the slots; a flag stands in byte 2 of each descriptor */
    check(out[44 + 28] == 4 && out[44 + 38] == 0x08 && out[44 + 48] == 2 && out[44 + 58] == 0x09 && out[44 + 70] == 0x09 && out[44 + 82] == 0x08,
          "the drive is empty, slots 16 and 17 are full, and slot 18 is empty");
    moves("from slot 17 into the drive", 17, 1, 0, 0, 0);
    check(session.changer.slots[0] == 3 && session.changer.slots[2] == 0, "3 is in the drive: its image is lent from here on");
    ask("tape open", 0x300, tape, 4);
    a.session = session;
    a.session.changer.slots[0] = 0;
    a = mossgoblin_end_method(a.session, true, 0, out, sizeof out);
    check(a.code == 1002 && a.len == 0, "an open tape beside an empty drive is a session that no call gives");
}

static struct mossgoblin_moved feed(const uint8_t *stream, size_t n, bool last)
{
    struct mossgoblin_moved m = mossgoblin_move_to_tape(session, image, sizeof image, stream, n, last, 0, out, sizeof out);
    session = m.session;
    return m;
}

/* An event that is not refused: what it sends is of this length. */
static void told(const char *what, struct mossgoblin_answer a, size_t len)
{
    check(a.code == 0 && a.len == len, what);
    session = a.session;
}

/* Get env gives the pair of FILESYSTEM and /vol, which the store holds, and PATHNAME_SEPARATOR behind it. */
static void variable_comes_back(void)
{
    static const char stored[] = "\0\0\0\1\0\0\0\0\0\0\0\12\0\0\0\12\0\0\0\4FILESYSTEM/vol";
    static const char given[] = "\0\0\0\0\0\0\0\2\0\0\0\12FILESYSTEM\0\0\0\0\0\4/vol\0\0\0\22PATHNAME_SEPARATOR\0\0\0\0\0\1/\0\0";
    check(memcmp(variables, stored, sizeof stored - 1) == 0, "the store has a count, the pair's four words, and its texts");
    size_t n = ask("data get env", 0x404, NULL, 0);
    check(n == 28 + sizeof given && memcmp(out + 28, given, sizeof given) == 0, "it gives the pair, and PATHNAME_SEPARATOR as / behind it");
}

/* Start backup with the pair of A and so many bytes of x. */
static void start_with(const char *what, uint32_t error, uint32_t length)
{
    static uint32_t body[LONG_BODY] = {4, 0x64756D70, 1, 1, 0x41000000};
    const size_t words = 6 + (length + 3) / 4;
    body[5] = length;
    for (size_t i = 6; i < words; i++)
        body[i] = 0x78787878;
    if (length % 4)
        body[words - 1] <<= 8 * (4 - length % 4);
    ask_lent(what, error, NULL, 0, false, 0x401, body, words);
}

/* A data end that is CONNECTED is started with what just does not fit, and with what fits; then the store is damaged. */
static void variables_that_fill(void)
{
    const uint32_t most = MOSSGOBLIN_STORE_LENGTH - 4 - 16 - 1;
    static uint8_t before[sizeof variables];
    ask_lent("data get env in CONNECTED is 19", 19, NULL, 0, false, 0x404, NULL, 0);
    memcpy(before, variables, sizeof variables);
    start_with("start backup with one byte too many is 22", 22, most + 1);
    check(session.source.state == 4 && memcmp(before, variables, sizeof variables) == 0, "state and store stay");
    start_with("start backup with a store that becomes full", 0, most);
    check(session.source.state == 1 && word(variables) == 1 && word(variables + 16) == most && variables[20] == 'A' &&
              variables[sizeof variables - 1] == 'x', "its last byte is the value's");
    size_t n = ask("data get env in ACTIVE", 0x404, NULL, 0);
    check(n == 36 + 8 + 4 + most + 1 + 24 + 8 && word(out + 32) == 2, "it gives all of that");
    variables[3] = 65;
    ask_lent("data get env of a store that is not laid out so is 7", 7, NULL, 0, false, 0x404, NULL, 0);
    check(word(out + 32) == 0, "with no pairs");
    variables[3] = 1;
}

/* The mover listens by TCP and is joined by a peer, whose one record goes to tape; then the peer is lost. The data end is at rest all the while. */
static void mover_by_tcp(void)
{
    const uint32_t by_tcp[] = {0, 1};
    size_t tape = session.tape.position;
    ASK("set window", 0xA05, 0, 0, 0, 1024);
    ask_lent("mover listen by TCP without a list is 9", 9, NULL, 0, false, 0xA01, by_tcp, 2);
    check(session.mover.state == 0 && session.mover.address == 0, "it stays IDLE");
    size_t n = ask_lent("mover listen by TCP, lent one address", 0, one_address, sizeof one_address, false, 0xA01, by_tcp, 2);
    check(n == 36 + sizeof one_address && word(out + 32) == 1 && memcmp(out + 36, one_address, sizeof one_address) == 0,
          "its reply has the type, and that address");
    check(session.mover.state == 1 && session.mover.address == 1 && session.source.state == 0, "the mover is in LISTEN by TCP");
    check(feed(stream, 1024, false).count == 0, "nothing moves yet");
    told("made, of the data end, does nothing", mossgoblin_made(session, false, 0, out, sizeof out), 0);
    check(session.mover.state == 1 && session.source.state == 0, "both ends are as they were");
    told("made, of the mover", mossgoblin_made(session, true, 0, out, sizeof out), 0);
    check(session.mover.state == 2 && session.mover.origin == tape, "the mover is ACTIVE from the tape's position on");

    struct mossgoblin_moved m = feed(stream, 1024, false);
    check(m.code == 0 && m.count == 1024 && m.len == 0 && session.mover.moved == 1024, "a record from the peer, with the data end IDLE");
    check(session.source.state == 0 && session.source.processed == 0, "the data end has processed nothing");
    struct mossgoblin_cartridge_entry e = mossgoblin_entry(image, sizeof image, tape);
    check(e.error == 0 && e.len == 1024 && memcmp(image + 48 + e.start, stream, 1024) == 0, "it is on the tape");

    n = ask("mover get state", 0xA00, NULL, 0);
    check(n == 104 && word(out + 96) == 1 && word(out + 100) == 0, "its address is of type TCP, with no addresses");
    told("lost, of the mover", mossgoblin_lost(session, true, 0, out, sizeof out), 32);
    check(word(out + 16) == 0x503 && word(out + 28) == 1 && session.mover.state == 4 && session.source.state == 0,
          "the mover is halted, CONNECT_CLOSED, and alone");
    check(session.mover.address == 1, "its address is TCP until stop");
    told("lost once more does nothing", mossgoblin_lost(session, true, 0, out, sizeof out), 0);
    ask("mover stop", 0xA04, NULL, 0);
    check(session.mover.state == 0 && session.mover.address == 0, "its address is LOCAL again");
}

/* The host is given the addresses of a connect by TCP, and says whether it connected; then the peer is lost. */
static void data_by_tcp(void)
{
    /* type TCP, two addresses: the first with the pair of A and 1 */
    const uint32_t body[] = {1, 2, 0x0A000001, 10000, 1, 1, 0x41000000, 1, 0x31000000, 0xC0A80101, 65535, 0};
    const size_t words = sizeof body / sizeof *body;
    uint8_t record[RECORD];
    size_t n = put_request(record, 0x40A, body, words);
    struct mossgoblin_addresses a = mossgoblin_addresses(record, n);
    check(a.count == 2 && a.hosts[0] == 0x0A000001 && a.ports[0] == 10000 && a.hosts[1] == 0xC0A80101 && a.ports[1] == 65535,
          "the two addresses of a data connect");
    bool zeros = true;
    for (size_t i = 2; i < MOSSGOBLIN_MOST_ADDRESSES; i++)
        zeros = zeros && a.hosts[i] == 0 && a.ports[i] == 0;
    check(zeros, "and no more");
    check(mossgoblin_addresses(record, n - 1).count == 0, "a record that is cut has none");
    put_word(record + 12, 1);
    check(mossgoblin_addresses(record, n).count == 0, "a reply has none");
    n = put_request(record, 0x409, body, words);
    check(mossgoblin_addresses(record, n).count == 0, "another message has none");

    ask_lent("data connect by TCP that failed is 23", 23, NULL, 0, false, 0x40A, body, words);
    check(session.source.state == 0 && session.source.address == 0, "it stays IDLE");
    ask_lent("data connect by TCP that was made", 0, NULL, 0, true, 0x40A, body, words);
    check(session.source.state == 4 && session.source.address == 1 && session.mover.state == 0, "data is CONNECTED by TCP, and alone");
    variables_that_fill();
    told("lost, of the data end", mossgoblin_lost(session, false, 0, out, sizeof out), 32);
    check(word(out + 16) == 0x501 && word(out + 28) == 4 && session.source.state == 2 && session.source.processed == 0,
          "data is halted, CONNECT_ERROR");
    check(word(variables) == 1, "the store stays");
    uint8_t last = variables[sizeof variables - 1];
    ask("data stop", 0x407, NULL, 0);
    check(word(variables) == 0 && word(variables + 16) != 0 && variables[sizeof variables - 1] == last, "its count is 0, and nothing else");
}

/* A command of rmt into an output that is all x: this reply, byte for byte, then every x that was there; and of the session nothing changes but the tape. */
static void said(const char *what, const char *command, size_t command_len, const char *reply, size_t reply_len)
{
    static uint8_t wanted[sizeof out];
    memset(out, 'x', sizeof out);
    memset(wanted, 'x', sizeof wanted);
    memcpy(wanted, reply, reply_len);
    struct mossgoblin_answer a = mossgoblin_rmt(session, image, sizeof image, (const uint8_t *)command, command_len, out, sizeof out);
    check(a.code == 0 && a.len == reply_len && memcmp(out, wanted, sizeof out) == 0, what);
    if (a.session.closed || a.session.first != session.first || a.session.sequence != session.sequence ||
        a.session.login.authorized != session.login.authorized || a.session.mover.state != session.mover.state)
        check(false, "a command takes no sequence number, and of the session changes the tape alone");
    session = a.session;
}

#define SAID(what, command, reply) said(what, command, sizeof command - 1, reply, sizeof reply - 1)
#define E5 "E5\nI/O error\n"
#define E6 "E6\nNo such device or address\n"
#define E22 "E22\nInvalid argument\n"

/* A session of its own: refused before a login, then a record that is written, and a mark behind it; rewound, and read back. */
static void by_rmt(void)
{
    static uint8_t before[sizeof image];
    session = mossgoblin_open(one_cartridge, 0, out, sizeof out).session;
    SAID("rmt: open before a login is E5", "Otape0\n2\n", E5);
    SAID("rmt: what does not read is E22, before a login too", "L0\n", E22);
    check(session.first, "no request has been answered yet");
    ASK("auth attributes", 0x103, 2);
    ASK("client auth", 0x901, MD5_LOGIN);
    SAID("rmt: read of a tape that is not open is E6", "R5\n", E6);
    SAID("rmt: open of another name is E6", "O/dev/rmt8\n0\n", E6);
    SAID("rmt: open with mode 3 is E22", "Otape0\n3\n", E22);
    SAID("rmt: open tape0, to write", "Otape0\n2\n", "A0\n");
    check(session.tape.opened && session.tape.writable && session.tape.position == 0, "the tape is open, at its start");
    SAID("rmt: write", "W7\nHE\n\0LLO", "A7\n");
    check(word(image + 8) == 1 && memcmp(image + 48, "HE\n\0LLO", 7) == 0, "the record is on the tape, and cuts it");
    memcpy(before, image, sizeof image);
    SAID("rmt: a write with a byte too few is E22", "W7\nHELLO!", E22);
    SAID("rmt: I 6 is E22", "I6\n0\n", E22);
    check(memcmp(before, image, sizeof image) == 0, "nothing is written");
    SAID("rmt: write a mark", "I0\n1\n", "A0\n");
    SAID("rmt: rewind", "I5\n0\n", "A0\n");
    SAID("rmt: read, with the bytes behind their number", "R32768\n", "A7\nHE\n\0LLO");
    check(session.tape.position == 1, "the record is passed");
    SAID("rmt: read at a mark is E5", "R32768\n", E5);
    check(session.tape.position == 2, "and the mark is passed");
    SAID("rmt: read at the end is E5", "R32768\n", E5);
    SAID("rmt: back over the mark", "I2\n1\n", "A0\n");
    SAID("rmt: back over the record", "I4\n1\n", "A0\n");
    SAID("rmt: read the first two bytes", "R2\n", "A2\nHE");
    SAID("rmt: close", "C\n", "A0\n");
    check(!session.tape.opened, "the tape is closed");
    SAID("rmt: close once more is E6", "Ctape0\n", E6);
    struct mossgoblin_answer a = mossgoblin_rmt(session, image, sizeof image, (const uint8_t *)"R5\n", 3, out, sizeof out - 1);
    check(a.code == 1001 && a.len == 0, "rmt: a short output is refused");
    session.mover.state = 5;
    a = mossgoblin_rmt(session, image, sizeof image, (const uint8_t *)"R5\n", 3, out, sizeof out);
    check(a.code == 1002 && a.len == 0, "rmt: a session that no call gives is refused");
    session.mover.state = 0;
    session.closed = true;
    a = mossgoblin_rmt(session, image, sizeof image, NULL, 0, out, sizeof out);
    check(a.code == 0 && a.len == 0 && a.session.closed, "rmt: a closed session answers nothing");
}

int main(void)
{
    for (size_t i = 0; i < sizeof stream; i++)
        stream[i] = i % 251;
    put_word(image, 1);
    put_word(image + 4, 4);
    by_md5();
    listings();

    changer();

    struct mossgoblin_answer a = mossgoblin_open(one_cartridge, 0, out, sizeof out - 1);
    check(a.code == 1001 && a.len == 0 && a.session.closed && a.session.changer.slots[0] == 0, "open: a short output is refused");
    a = mossgoblin_open(one_cartridge, 0, out, sizeof out);
    check(a.code == 0 && a.len == 40 && word(out + 16) == 0x502, "open");
    check(a.session.mover.size == MOSSGOBLIN_FIRST_SIZE, "open: the first record size");
    session = a.session;

    ASK("connect open", 0x900, 4);
    ASK("auth attributes", 0x103, 2);
    ASK("client auth", 0x901, MD5_LOGIN);
    ASK("tape open", 0x300, 5, 0x74617065, 0x30000000, 1);
    ASK("set record size", 0xA08, 1024);
    ASK("set window", 0xA05, 0, 0, 0, 2048);
    ASK("mover listen", 0xA01, 0, 0);
    ASK("data connect", 0x40A, 0);
    ASK("start backup, with FILESYSTEM as /vol", 0x401, 4, 0x64756D70, 1, 10, 0x46494C45, 0x53595354, 0x454D0000, 4, 0x2F766F6C);

    check(feed(stream, 3000, false).count == 1024, "first record");
    check(feed(stream + 1024, 1976, false).count == 1024, "second record");
    struct mossgoblin_moved m = feed(stream + 2048, 952, false);
    check(m.count == 0 && m.len == 40 && word(out + 16) == 0x504 && word(out + 28) == 5, "end of window: paused, with its notice");

    ASK("set window", 0xA05, 0, 2048, 0, 1024);
    ask("mover continue", 0xA02, NULL, 0);
    m = feed(stream + 2048, 952, true);
    check(m.count == 952 && m.session.mover.moved == 3072 && m.session.source.processed == 3000, "last record, filled");
    m = feed(stream, 0, true);
    check(m.count == 0 && m.len == 64 && word(out + 16) == 0x501 && word(out + 48) == 0x503, "end of stream: both halted, data's notice first");

    bool zeros = true;
    for (size_t i = 0; i < 72; i++)
        zeros = zeros && image[48 + 3000 + i] == 0;
    check(memcmp(image + 48, stream, 3000) == 0 && zeros, "the tape has the stream, and 72 zeros");

    struct mossgoblin_cartridge_entry e = mossgoblin_entry(image, sizeof image, 2);
    check(mossgoblin_sound(image, sizeof image) && e.error == 0 && e.len == 1024 && e.start == 2048, "the third entry");
    check(mossgoblin_entry(image, sizeof image, 3).error == 13, "there is no fourth");
    image[3] ^= 4;
    check(!mossgoblin_sound(image, sizeof image) && mossgoblin_entry(image, sizeof image, 0).error == 15, "a damaged image has no entries");
    image[3] ^= 4;

    a = mossgoblin_end_method(session, true, 0, out, sizeof out);
    check(a.code == 0 && a.len == 0, "the method's end after it does nothing");
    variable_comes_back();
    ask("data stop", 0x407, NULL, 0);
    check(word(variables) == 0 && memcmp(variables + 20, "FILESYSTEM/vol", 14) == 0, "the store's count is 0, and nothing else");
    ask("mover stop", 0xA04, NULL, 0);
    mover_by_tcp();
    data_by_tcp();
    a = mossgoblin_made(session, true, 0, out, sizeof out - 1);
    check(a.code == 1001 && a.len == 0 && a.session.source.state == 0, "made: a short output is refused");
    a = mossgoblin_request(session, NULL, 0, given_challenge, NULL, 0, false, image, sizeof image, variables, sizeof variables - 1, NULL, 0, 0, out, sizeof out);
    check(a.code == 1001 && a.len == 0 && !a.session.closed, "request: a store of another length is refused, before a record that would close the session");
    session.mover.address = 1;
    a = mossgoblin_lost(session, true, 0, out, sizeof out);
    check(a.code == 1002 && a.len == 0, "an end by TCP in IDLE is a session that no call gives");
    session.mover.address = 0;
    session.mover.state = 5;
    a = mossgoblin_end_method(session, true, 0, out, sizeof out);
    check(a.code == 1002 && a.len == 0, "a session that no call gives is refused");
    by_rmt();
    return 0;
}
