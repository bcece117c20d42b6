/* The digest of a login by MD5: the proved code against OpenSSL's, first what they give, then how long they take. The proved functions come from the
 * library that `rust/bench/run md5` makes; nothing checks these declarations against it but the comparison here. */
#define OPENSSL_SUPPRESS_DEPRECATED
#include <openssl/crypto.h>
#include <openssl/md5.h>

#include <stdint.h>
#include <stdio.h>
#include <stdlib.h>
#include <string.h>
#include <time.h>

void proved_login(const uint8_t *password, size_t n, const uint8_t *challenge, uint8_t *digest);
void proved_digest(const uint8_t *message, size_t n, uint8_t *digest);

enum { KINDS = 4, ROUNDS = 501, CALLS = 1000, LONGEST = 32, CHALLENGE = 64, DIGEST = 16, STRING = 128 };

static uint8_t password[LONGEST], challenge[CHALLENGE], message[1000], digest[DIGEST];
static size_t length = 12;

/* The string of a login as C lays it out, and its digest. */
__attribute__((noinline)) static void c_login(const uint8_t *word, size_t n, const uint8_t *given, uint8_t *out)
{
    uint8_t string[STRING] = {0};
    memcpy(string, word, n);
    memcpy(string + CHALLENGE - n, given, CHALLENGE);
    memcpy(string + STRING - n, word, n);
    MD5(string, STRING, out);
}

static void run(int kind)
{
    switch (kind) {
    case 0: proved_login(password, length, challenge, digest); break;
    case 1: c_login(password, length, challenge, digest); break;
    case 2: proved_digest(message, STRING, digest); break;
    default: MD5(message, STRING, digest);
    }
}

static void chance(uint8_t *bytes, size_t n)
{
    static uint64_t x = 0x9e3779b97f4a7c15;
    for (size_t i = 0; i < n; i++) {
        x ^= x << 13, x ^= x >> 7, x ^= x << 17;
        bytes[i] = (uint8_t)(x >> 16);
    }
}

static void same(const uint8_t *other, const char *what, size_t n)
{
    if (memcmp(digest, other, DIGEST) == 0) return;
    printf("the digest of a %s of %zu bytes differs\n", what, n);
    exit(1);
}

/* Passwords of each length, and messages of each length up to 1,000 bytes. */
static void compare(void)
{
    uint8_t other[DIGEST];
    for (size_t i = 0; i < 20000; i++) {
        size_t n = 1 + i % LONGEST, m = i % (sizeof message + 1);
        chance(password, n), chance(challenge, CHALLENGE), chance(message, m);
        proved_login(password, n, challenge, digest), c_login(password, n, challenge, other);
        same(other, "login with a password", n);
        proved_digest(message, m, digest), MD5(message, m, other);
        same(other, "message", m);
    }
}

static double now(void)
{
    struct timespec t;
    clock_gettime(CLOCK_MONOTONIC, &t);
    return (double)t.tv_sec * 1e9 + (double)t.tv_nsec;
}

static int order(const void *a, const void *b)
{
    double x = *(const double *)a, y = *(const double *)b;
    return (x > y) - (x < y);
}

int main(void)
{
    static double times[KINDS][ROUNDS];
    compare();
    /* The first rounds warm up, and count for nothing. */
    for (int round = -100; round < ROUNDS; round++)
        for (int k = 0; k < KINDS; k++) {
            int kind = (round + 100 + k) % KINDS;
            double begun = now();
            for (int i = 0; i < CALLS; i++) run(kind);
            if (round >= 0) times[kind][round] = (now() - begun) / CALLS;
        }
    for (int k = 0; k < KINDS; k++) qsort(times[k], ROUNDS, sizeof(double), order);
    printf("C: %s\n%-50s%8s%8s%14s\n", OpenSSL_version(OPENSSL_VERSION), "nanoseconds a call, medians", "proved", "C", "proved/C");
    const char *rows[] = {"MD5 of a login, 128 bytes", "MD5 of a message, 128 bytes"};
    for (int r = 0; r < 2; r++) {
        double proved = times[2 * r][ROUNDS / 2], c = times[2 * r + 1][ROUNDS / 2];
        printf("%-50s%8.0f%8.0f%14.2f\n", rows[r], proved, c, proved / c);
    }
}
