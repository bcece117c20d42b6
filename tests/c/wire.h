/* Words and requests, as the programs in C write and read them. */
#include <stddef.h>
#include <stdint.h>

static void put_word(uint8_t *at, uint32_t word)
{
    at[0] = word >> 24;
    at[1] = word >> 16;
    at[2] = word >> 8;
    at[3] = word;
}

static inline uint32_t word(const uint8_t *at)
{
    return (uint32_t)at[0] << 24 | (uint32_t)at[1] << 16 | (uint32_t)at[2] << 8 | at[3];
}

/* The most words of a request's body here, and the bytes of such a record. */
#define BODY 16
#define RECORD (28 + 4 * BODY)

/* A request whose body is words; gives its length. */
static size_t put_request(uint8_t *record, uint32_t message, const uint32_t *body, size_t words)
{
    uint32_t header[7] = {0x80000000u + 24 + 4 * (uint32_t)words, 7, 0, 0, message, 0, 0};
    for (size_t i = 0; i < 7; i++)
        put_word(record + 4 * i, header[i]);
    for (size_t i = 0; i < words; i++)
        put_word(record + 28 + 4 * i, body[i]);
    return 28 + 4 * words;
}

/* What a host lends for a login: v with the password pw by text, which lets nobody in, ndmp with the password ndmp by MD5. */
static const uint8_t accounts[] = {0, 0, 0, 2, 0, 0, 0, 1, 0, 0, 0, 1, 'v', 0, 0, 0, 0, 0, 0, 2, 'p', 'w', 0, 0,
                                   0, 0, 0, 2, 0, 0, 0, 4, 'n', 'd', 'm', 'p', 0, 0, 0, 4, 'n', 'd', 'm', 'p'};

/* A challenge that another vault gave a real client, and the body of the login that it sent: a host that serves is to lend fresh randomness instead. */
static const uint8_t given_challenge[] = {
    0x2e, 0xed, 0x00, 0xe8, 0xd2, 0x95, 0x7f, 0x8e, 0xd9, 0x5a, 0xb2, 0x5e, 0xe6, 0x4e, 0xa7, 0x8a, 0x79, 0xa4, 0x17, 0x13, 0xde, 0x18,
    0xe9, 0xf9, 0x6d, 0xeb, 0x0b, 0x69, 0x16, 0xd6, 0x02, 0x43, 0xa9, 0x6c, 0x5d, 0x5d, 0x70, 0xf8, 0xc0, 0x63, 0x72, 0x56, 0xa9, 0xa0,
    0xab, 0x69, 0x72, 0x6e, 0x80, 0xe6, 0x64, 0x7e, 0x2f, 0x90, 0xaa, 0x14, 0xe7, 0x62, 0x10, 0x9a, 0x23, 0xce, 0x7e, 0xf2};
#define MD5_LOGIN 2, 4, 0x6E646D70, 0x5DA7AC73, 0x24B97CAF, 0x774D6EA4, 0x927F57D0
