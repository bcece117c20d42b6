/* The session core of a tape vault that speaks NDMP version 4: eight calls, a reader of addresses, a listing of accounts, and two functions that look at a
 * cartridge, as C functions of the static library `capi` (`tools/library`).
 *
 * No call asks anything of its caller but that each pointer leads to as many bytes as the length beside it says (a length of 0 may have any pointer), the
 * challenge and the slot list, which have none beside them, to MOSSGOBLIN_CHALLENGE bytes and MOSSGOBLIN_PLACES words, and that no two buffers of a call
 * overlap where one of them is written: image, variables, out and dest are written. Whatever the bytes are, there is an answer. A call keeps nothing: the
 * session goes in and comes back by value, and the buffers are the caller's again when it returns.
 * It needs no heap, and less than 4,096 bytes of stack beside arguments and answer (measured: README.md, Sizes).
 *
 * The code of each of the eight calls is 0, 1001 or 1002, and comes before all else:
 *   1001  the output is shorter than MOSSGOBLIN_OUTPUT bytes; of mossgoblin_request also: the store has another length than MOSSGOBLIN_STORE_LENGTH
 *   1002  the session breaks the relation of docs/RELATION.md; no session that these calls give does. Of mossgoblin_open: the slot list names a cartridge twice
 * With 1001 and 1002 nothing is written and nothing changes: the session comes back as it went in (mossgoblin_open, which takes none, gives a closed one with
 * an empty slot list).
 * On a closed session the code is 0, and nothing is written, moved or changed.
 *
 * `len` is how many bytes stand at the output's start: a reply and the notices behind it, or nothing. They are to be sent to the client as they are. The bytes
 * behind them stay as they were. `time` is the time stamp that they carry, in seconds since 1970; a reply of mossgoblin_rmt carries none. The words of records
 * and of the image are big-endian (RFC 4506). */
#ifndef MOSSGOBLIN_H
#define MOSSGOBLIN_H

#include <stdbool.h>
#include <stddef.h>
#include <stdint.h>

#ifdef __cplusplus
extern "C" {
#endif

/* The least length of an output. */
#define MOSSGOBLIN_OUTPUT 36864

/* The data end. State: 0 IDLE, 1 ACTIVE, 2 HALTED, 3 LISTEN, 4 CONNECTED. Operation: 0 none, 1 backup, 2 recover. Address is the type of its address, 0
 * LOCAL, 1 TCP: LOCAL until a listen or connect by TCP is accepted, and then TCP until stop. Processed stays 0 while the end is joined by TCP. */
struct mossgoblin_data {
    uint32_t state;
    uint32_t operation;
    uint32_t reason;
    uint32_t address;
    uint64_t processed;
};

/* The record size of a new session. */
#define MOSSGOBLIN_FIRST_SIZE 10240

/* The mover. State: 0 IDLE, 1 LISTEN, 2 ACTIVE, 3 PAUSED, 4 HALTED. Mode: 0 to tape, 1 from tape, 2 none. Size is the record size, 1 to 32,768 in every
 * session that these calls give. A window of length 0 is none, and one of length 2^64 - 1 has no end: it goes up to place 2^64 - 1 on the stream, itself
 * outside. Seek is the place on the stream that a mover read has come to, left the bytes that it has still to be given, origin the tape's position when the
 * mover last became ACTIVE. Address is the type of its address, as of the data end. */
struct mossgoblin_mover {
    uint32_t state;
    uint32_t mode;
    uint32_t pause;
    uint32_t halt;
    uint32_t size;
    uint32_t address;
    uint64_t offset;
    uint64_t length;
    uint64_t moved;
    uint64_t seek;
    uint64_t left;
    size_t origin;
};

/* The tape; position counts the entries before it. */
struct mossgoblin_tape {
    bool opened;
    bool writable;
    size_t position;
};

/* The places of the changer that hold a cartridge: the drive, then eight slots. */
#define MOSSGOBLIN_PLACES 9

/* The changer; key, code and qualifier are the pending sense, and are 0 where none is. Slots is the slot list: the cartridge in each place, the drive's first
 * (element address 1), then those of the slots 16 to 23. 0 is an empty place, and any other number a cartridge of the host's; no two places name the same
 * one. The transport, element address 0, holds none.
 *
 * A session is opened with a list, and passes it on from call to call. MOVE MEDIUM (SCSI execute CDB, A5h) is the one request that changes it, where it is
 * accepted with status 0: the cartridge goes from a full place to an empty one, and so each cartridge is in exactly one place from the first call to the last.
 * SCSI open, close and reset, a refused request, a move of bytes and the session's end leave it. READ ELEMENT STATUS (B8h) tells which places are full, and
 * never a number. While the tape is open the drive is not empty, and nothing is moved out of it: MTIO 6 or TAPE close comes first. Both leave the
 * cartridge in the drive. While the drive is empty TAPE open is refused with 10, and the image is looked at by nothing.
 *
 * The list is one record, used by one session at a time. A host takes it from the last session that these calls gave, of those that an accepted open began,
 * and opens the next one with it: never from a refused open, whose list is empty. Where several sessions are open at once, it sets slots before a call to
 * what the last call of any of them left. Such a list names none twice, and while a session has the tape open the host lets no other session move the
 * cartridge in the drive: the core knows one session. */
struct mossgoblin_changer {
    bool opened;
    uint8_t key;
    uint8_t code;
    uint8_t qualifier;
    uint32_t slots[MOSSGOBLIN_PLACES];
};

/* The bytes of a challenge. */
#define MOSSGOBLIN_CHALLENGE 64

/* What the connection knows of its client: authorized is set by an accepted login, and stays; challenged is whether it was given a challenge, and challenge
 * the newest one, by which a login by MD5 is judged. It is all zeros until then. No login, right or wrong, uses it up. */
struct mossgoblin_login {
    bool authorized;
    bool challenged;
    uint8_t challenge[MOSSGOBLIN_CHALLENGE];
};

/* A session. Its fields may be read; a session is to be made by mossgoblin_open, and each call is to be handed what the last one gave. Between two calls
 * its host may set sequence, the number of the next message, to any number: it does so where it sends no reply, as to a request of its own, and the numbers of
 * what it sends are to have no gap. And it may set changer.slots, as said above, to a list that names none twice and, while the tape is open, has the same
 * cartridge in the drive. What docs/PROMISES.md says of the window, and of what comes out, holds with both too. Where another session has the tape or the
 * changer open, it may set tape.opened or changer.opened for one request, with a cartridge in the drive, and sets them back behind it: so SCSI open is 3, and a
 * move from or to the drive 53h/02h; that is in no proof. It sets nothing else. First is set until a request has been answered. */
struct mossgoblin_session {
    bool closed;
    bool first;
    struct mossgoblin_login login;
    uint32_t sequence;
    struct mossgoblin_data source;
    struct mossgoblin_mover mover;
    struct mossgoblin_tape tape;
    struct mossgoblin_changer changer;
};

/* What a call returns. */
struct mossgoblin_answer {
    uint32_t code;
    size_t len;
    struct mossgoblin_session session;
};

/* What a move returns; count is how many bytes were taken or handed over. */
struct mossgoblin_moved {
    uint32_t code;
    size_t count;
    size_t len;
    struct mossgoblin_session session;
};

/* An entry of a cartridge: a record's length, or 0 for a mark, and where it starts in the body. The error is 0; 13 past the last entry; 15 for an image that is
 * not sound. With an error the rest is 0. */
struct mossgoblin_cartridge_entry {
    uint32_t error;
    size_t len;
    size_t start;
};

/* The most addresses of a list, and the most bytes of the list that is lent to a listen by TCP. */
#define MOSSGOBLIN_MOST_ADDRESSES 16
#define MOSSGOBLIN_MOST_LENT 16384

/* The addresses of a connect by TCP, in the list's order: `count` hosts, each with the port beside it. A host is an IPv4 address as a number: 10.0.0.1 is
 * 0x0A000001. What is past the count is 0. */
struct mossgoblin_addresses {
    uint32_t count;
    uint32_t hosts[MOSSGOBLIN_MOST_ADDRESSES];
    uint32_t ports[MOSSGOBLIN_MOST_ADDRESSES];
};

/* The bytes of the store of a data end's variables, which mossgoblin_request is lent: the environment of NDMP, pairs of a name and a value. Its words are:
 *
 *   at 0           how many pairs there are, at most 64
 *   at 4 + 16 i    of pair i, from 0: where its name starts, the name's length, where its value starts, the value's length
 *
 * The texts follow, from 4 + 16 x count on: without gaps, each name before its value, in the order of the pairs. A start counts from the first byte of the
 * first text: so the first start is 0, and each is the sum of all lengths before it. What lies past the texts belongs to nobody, and stays.
 *
 * It is written by two kinds of requests. An accepted start, of a backup or a recover, puts the client's pairs there, in their order: count, words and texts,
 * and no byte behind them. An accepted data stop makes the count 0, and changes no other byte. Refused requests and all others leave it, and so do a halt and
 * the session's end. A store of zeros has no pairs.
 *
 * DATA get env (0x404) is answered from it while the data end is ACTIVE or HALTED: with its pairs, and with PATHNAME_SEPARATOR as `/` behind them where none of
 * the names is exactly that. The store does not hold that one. Refusals that concern it:
 *   22  start: the pairs do not fit, as 4 + 16 x count + all lengths is above MOSSGOBLIN_STORE_LENGTH; after 9. More than 64 pairs do not decode: 18
 *   19  get env: the data end is neither ACTIVE nor HALTED
 *   7   get env: the store is not laid out so, as its count is above 64, a start is another one, or a text passes the store's end; after 19. Of an image 7 is
 *       told by the requests of the tape alone
 *
 * mossgoblin_open is not lent the store, and a new session does not clear it: a data end that halts before its first start answers get env from the store as
 * it lies. So a host that lends one store to several sessions in turn fills it with zeros before each, or a client is given what another left. */
#define MOSSGOBLIN_STORE_LENGTH 16384

/* The most accounts that mossgoblin_request may be lent. They are one buffer, in XDR (RFC 4506) and to its end:
 *
 *   count        a word: how many accounts follow, 0 to 8
 *   and of each:
 *     kind       a word: 1 text, 2 MD5
 *     id         a string: a word with its length, its bytes, zeros up to a multiple of four
 *     password   a string
 *
 * A login is by MD5 (CONNECT client auth of type 2), and compared with the accounts of kind 2 alone; an id may stand more than once, and then any of these may
 * match. A password of kind 2 that is empty or above 32 bytes never lets in. Text login is withdrawn: accounts of kind 1 are read, and let nobody in; a login of
 * type 1 is refused with 9 before any account is looked at, whatever stands behind the type, and so is 0x103 of that type. A buffer that is not laid out
 * so (a ninth account, another kind, a fill byte that is not zero, bytes behind the last account or missing) has no accounts: nobody gets in, and that is no
 * refusal of the call. */
#define MOSSGOBLIN_MOST_ACCOUNTS 8

/* A new session, with this slot list. The notice of the connection status is written to the output, as message number 1. A list that names a cartridge twice is
 * refused with 1002, after 1001; with either the session that comes back is closed, and its list is empty. 0 may stand often. `slots` is only read. */
struct mossgoblin_answer mossgoblin_open(const uint32_t slots[MOSSGOBLIN_PLACES], uint32_t time, uint8_t *out, size_t out_len);

/* One request: `input` is one whole record, the mark with it, of any bytes. `accounts` is whom a login may let in, as above.
 *
 * `challenge` leads to MOSSGOBLIN_CHALLENGE bytes that a client which asks for the auth attributes of MD5 (0x103 of type 2) is given. That request alone looks
 * at them, and where it is accepted the session keeps them, as the newest challenge. They are to come from the system's randomness, fresh with each call, and
 * are never to be lent again: whoever has seen a login by MD5 can repeat it wherever the same challenge is given. A login by MD5 before any challenge is
 * refused with 4, as one with a wrong id or digest is.
 *
 * `addresses` is what a listen by TCP answers: an XDR list, without the word of the type before it: a count, and of each address host, port, a count of pairs
 * and the pairs. The host has a port open at each of them. One that does not decode, has no address, more than 16, a port above 65,535 or more than 64 pairs,
 * or is above MOSSGOBLIN_MOST_LENT bytes is refused with 9. `made` is whether the connection of a connect by TCP was made, to one of the addresses that
 * mossgoblin_addresses gives: where it was not, the connect is refused with 23, after all else that it can be refused for. Listens and connects by LOCAL, and
 * all other requests, look at neither. Listens and connects leave the image, and a call keeps nothing: so a host may first ask as if all were well, pass over
 * that answer, and open no port and connect to nobody where it is a refusal. They leave the store too.
 *
 * `variables` is the store above: the same one with each request of a session, as the last call left it. Of another length than MOSSGOBLIN_STORE_LENGTH it is
 * refused with the code 1001, whatever the request is.
 *
 * `image` is the cartridge that the session's slot list names as being in the drive; where it names none, any bytes. TAPE requests alone look at it. A request
 * that moves another cartridge into the drive is lent the one before it, and the next is lent that one: no tape is open between them.
 *
 * The image changes only by TAPE write, which writes the record that the client sends, and by MTIO 5, which writes marks: both outside any window of the
 * mover, at the tape's position, and only after login, with the tape open for writing and the mover neither in LISTEN nor ACTIVE. A refused request leaves all
 * but the message counter and the "first request" mark, also at a login. A badly framed record closes the session without a reply, and so does an accepted
 * CONNECT close; a message that is no request is ignored. Everything else is answered: one reply, then its notices. */
struct mossgoblin_answer mossgoblin_request(struct mossgoblin_session session, const uint8_t *accounts, size_t accounts_len,
                                            const uint8_t *challenge, const uint8_t *addresses, size_t addresses_len, bool made,
                                            uint8_t *image, size_t image_len, uint8_t *variables, size_t variables_len,
                                            const uint8_t *input, size_t input_len, uint32_t time, uint8_t *out, size_t out_len);

/* One command of the remote tape protocol, rmt: `command` is one whole command of any bytes, W with its data. `\n` is a line feed (byte 10), and a number is
 * one to ten digits, at most 4,294,967,295; a sign or a blank is none.
 *
 *   O<name>\n<mode>\n    open: mode 0 reads, 1 and 2 also write. The name is `tape0`
 *   C<name>\n            close: the name is any up to the line feed, or none, and is not looked at
 *   R<count>\n           read: the first count bytes of the next record, which is passed
 *   W<count>\n<data>     write the data as one record; the count is how many bytes they are
 *   I<op>\n<count>\n     0 write marks, 1 and 2 forward and back over marks, 3 and 4 forward and back over records, 5 rewind, whose count counts for nothing
 *
 * It is judged as the TAPE request that says the same (mode 2 is NDMP's 1, and the I operations 0 to 5 are MTIO 5, 0, 1, 2, 3 and 4), by the same tests in the
 * same order, and leaves tape and image as that request does: so the image changes only by W and I 0. It is lent the image as mossgoblin_request is, and no
 * store: none is looked at, or refused. Its output too has at least MOSSGOBLIN_OUTPUT bytes.
 *
 * The session is to be logged in first, by mossgoblin_request: rmt has no login, and before one every command that reads is E5. Whoever may hand commands on has
 * the tape. A command takes no sequence number and leaves the "first request" mark, and all of the session but the tape; the same session may be handed records
 * and commands in any order. It sends no notice, and never closes the session.
 *
 * `len` bytes are its one reply, to be sent as they are:
 *   A<number>\n                        done: of W how many bytes were written, of R how many were read, with those bytes right behind the line feed; else 0
 *   E22\nInvalid argument\n            `command` does not read so (another letter or I operation, a line feed or data missing, bytes left over), in the place of
 *                                      18, and so before a login too; or 9: another mode, or more than 32,768 bytes to read or write
 *   E6\nNo such device or address\n    6 or 16: the tape is not open, or the name of an open is another one
 *   E5\nI/O error\n                    every other number, 3, 4, 5, 7, 10, 15 and 19; and 12 and 13, a mark or the tape's end: then the tape has moved as by the
 *                                      TAPE request, over the mark too, and how far is not told
 * With E22 and E6, and with E5 for all but 12 and 13, nothing changes. */
struct mossgoblin_answer mossgoblin_rmt(struct mossgoblin_session session, uint8_t *image, size_t image_len, const uint8_t *command,
                                        size_t command_len, uint8_t *out, size_t out_len);

/* One move to tape, in a backup: `stream` is what waits of the stream, `last` whether nothing will follow it. At most one record is written to the image, and
 * `count` bytes of the stream are taken from its front. At the window's end, where a whole record more would pass it, and where the tape is full the mover
 * pauses; an empty last part, or a damaged image, halts both ends. Otherwise nothing happens. A pause and a halt send their notices. It is lent no
 * destination, and hands nothing over. In mode 1, and while the mover is not ACTIVE or the data end not ACTIVE in a backup, it does nothing: count and len are
 * 0, and session and image stay. Where the mover is joined by TCP the stream is what its peer sends: then nothing is asked of the data end, which stays as it
 * is, and a halt is the mover's alone. */
struct mossgoblin_moved mossgoblin_move_to_tape(struct mossgoblin_session session, uint8_t *image, size_t image_len, const uint8_t *stream,
                                                size_t stream_len, bool last, uint32_t time, uint8_t *out, size_t out_len);

/* One move from tape, in a recover: of the record that the seek position is in, `count` bytes are written to the front of `dest`; its other bytes stay. The
 * image is only read. Outside the window, at a mark and at the tape's end the mover pauses; a damaged image or a record of another size halts both ends. With
 * nothing left to read and with no room nothing happens. A pause and a halt send their notices. It is lent no stream. In mode 0, and while the mover is not
 * ACTIVE or the data end not ACTIVE in a recover, it does nothing: count and len are 0, and session and destination stay. Where the mover is joined by TCP,
 * `dest` is what goes to its peer: then nothing is asked of the data end, which stays as it is, and a halt is the mover's alone. */
struct mossgoblin_moved mossgoblin_move_from_tape(struct mossgoblin_session session, const uint8_t *image, size_t image_len, uint8_t *dest,
                                                  size_t dest_len, uint32_t time, uint8_t *out, size_t out_len);

/* The end of the method that makes or takes the stream, in success or not: while the data end is ACTIVE both ends halt, with their notices; one that is joined
 * by TCP halts alone. Otherwise nothing happens. */
struct mossgoblin_answer mossgoblin_end_method(struct mossgoblin_session session, bool ok, uint32_t time, uint8_t *out, size_t out_len);

/* A peer has connected, to the mover where `mover` is set and else to the data end. Where that end is in LISTEN by TCP it is joined: the mover becomes ACTIVE,
 * with the tape's position as its origin, the data end CONNECTED. Nothing is sent, and the other end stays as it is. Elsewhere nothing happens. */
struct mossgoblin_answer mossgoblin_made(struct mossgoblin_session session, bool mover, uint32_t time, uint8_t *out, size_t out_len);

/* The connection of the mover, where `mover` is set, and else of the data end was lost. Where that end is joined by TCP it halts, with its notice: the mover,
 * ACTIVE or PAUSED, by CONNECT_CLOSED 1, the data end, CONNECTED or ACTIVE, by CONNECT_ERROR 4. The other end stays as it is. Elsewhere, in LISTEN too, nothing
 * happens. */
struct mossgoblin_answer mossgoblin_lost(struct mossgoblin_session session, bool mover, uint32_t time, uint8_t *out, size_t out_len);

/* The addresses of a record that is a connect by TCP, for the host to make the connection; `input` is as in mossgoblin_request, of any bytes. The count is 0
 * for every other record: one that is badly framed or no request, another message, another address type, a body that does not decode, an empty list. It is
 * handed no session, and judges neither state nor login. */
struct mossgoblin_addresses mossgoblin_addresses(const uint8_t *input, size_t input_len);

/* The least length of the output of mossgoblin_accounts: eight lines of twelve bytes. */
#define MOSSGOBLIN_LEAST_LISTING 96

/* What a listing of accounts returns: the code is 0 or 1001, and `len` is how many bytes stand at the output's start. */
struct mossgoblin_listed {
    uint32_t code;
    size_t len;
};

/* The accounts that mossgoblin_request may be lent, listed: `accounts` is of any bytes. For each account, in their order, a line is written to the front of
 * `out`: its number from 0, a blank, `md5` for kind 2 or `withdrawn` for kind 1, and a line feed (byte 10), the last line's too: `0 withdrawn`, `1 md5`. An
 * account by MD5 whose password never lets in, as it is empty or above 32 bytes, is `md5` too. The bytes behind the lines stay as they were. A buffer that is
 * not laid out as accounts has no line: the code is 0, and `len` 0.
 *   1001  the output is shorter than MOSSGOBLIN_LEAST_LISTING bytes, also where the lines would fit: then nothing is written, and `len` is 0
 * It is handed no session, judges none, and tells neither ids nor passwords. */
struct mossgoblin_listed mossgoblin_accounts(const uint8_t *accounts, size_t accounts_len, uint8_t *out, size_t out_len);

/* Whether an image is a sound cartridge. The image is only read. */
bool mossgoblin_sound(const uint8_t *image, size_t image_len);

/* Entry i of an image, from 0. The image is only read. */
struct mossgoblin_cartridge_entry mossgoblin_entry(const uint8_t *image, size_t image_len, size_t i);

#ifdef __cplusplus
}
#endif

#endif
