/*
 * Times the proved ciphers beside OpenSSL's on the same machine in the same run, after checking that both give the same results.
 *
 * Ours come from the static library of the crate bench_calls. They work the key schedule out anew for each block. OpenSSL is called
 * through EVP with padding off, with the key set anew for each block or seal, and with the key set once. EVP's own cost of setting a key
 * is a large part of the first, so a block with its key is also timed by libcrypto's functions below EVP (deprecated, still there in 3).
 * A measure is the best of many short rounds, and the rounds of all measures take turns, so that other work on the machine disturbs it
 * little; the median beside it shows how much there was. Each block is the result of the one before, but for many blocks a call.
 */
#define OPENSSL_SUPPRESS_DEPRECATED
#include <openssl/des.h>
#include <openssl/evp.h>
#include <openssl/provider.h>
#include <openssl/seed.h>
#include <stdint.h>
#include <stdio.h>
#include <stdlib.h>
#include <string.h>
#include <time.h>

/* The crate bench_calls: 0 where a call is taken, 1 where it is refused. A slice is a pointer and then a length. */
extern uint8_t seed_encipher(const uint8_t *key, size_t key_length, uint8_t *block, size_t block_length);
extern uint8_t triple_des_encipher(const uint8_t *key, size_t key_length, uint8_t *block, size_t block_length);
extern uint8_t message_seal(uint8_t algorithm, const uint8_t *key, size_t key_length, const uint8_t *message, size_t message_length,
                            uint8_t *seal, size_t seal_length);

enum { KEY = 16, MOST_MESSAGE = 48, SEAL = 4, TIMED_MESSAGE = 24, BULK_BLOCKS = 256, COMPARISONS = 20000, ROUNDS = 31 };
static const double ROUND_NS = 8e6;

static void fail(const char *what)
{
    fprintf(stderr, "bench: %s\n", what);
    exit(1);
}

static void must(int ok, const char *what)
{
    if (!ok)
        fail(what);
}

/* Bytes for keys, blocks and messages: splitmix64 from a fixed start, so that a run can be repeated. */
static uint64_t state = 4269;

static uint64_t next_word(void)
{
    uint64_t z = state += 0x9E3779B97F4A7C15u;
    z = (z ^ z >> 30) * 0xBF58476D1CE4E5B9u;
    z = (z ^ z >> 27) * 0x94D049BB133111EBu;
    return z ^ z >> 31;
}

static void fill(uint8_t *bytes, size_t length)
{
    for (size_t i = 0; i < length; i++)
        bytes[i] = (uint8_t)next_word();
}

/* A block in place by libcrypto without EVP, with the key schedule worked out for it. */

static void seed_below_evp(const uint8_t *key, uint8_t *block)
{
    SEED_KEY_SCHEDULE schedule;
    SEED_set_key(key, &schedule);
    SEED_encrypt(block, block, &schedule);
}

static void triple_des_below_evp(const uint8_t *key, uint8_t *block)
{
    DES_key_schedule first, second;
    DES_set_key_unchecked((const_DES_cblock *)key, &first);
    DES_set_key_unchecked((const_DES_cblock *)(key + 8), &second);
    DES_ecb2_encrypt((const_DES_cblock *)block, (DES_cblock *)block, &first, &second, DES_ENCRYPT);
}

/* One cipher on both sides. */
struct cipher {
    const char *name;
    const char *ecb_name, *cbc_name;
    int block;
    uint8_t algorithm;
    uint8_t (*encipher)(const uint8_t *, size_t, uint8_t *, size_t);
    void (*below_evp)(const uint8_t *, uint8_t *);
    EVP_CIPHER_CTX *ecb, *cbc;
};

static struct cipher ciphers[] = {
    {"SEED", "SEED-ECB", "SEED-CBC", 16, 0x00, seed_encipher, seed_below_evp, NULL, NULL},
    {"Triple DES", "DES-EDE-ECB", "DES-EDE-CBC", 8, 0x10, triple_des_encipher, triple_des_below_evp, NULL, NULL},
};
enum { CIPHERS = sizeof ciphers / sizeof *ciphers };

static const uint8_t zero_vector[16];

static EVP_CIPHER_CTX *opened(const char *name)
{
    EVP_CIPHER *cipher = EVP_CIPHER_fetch(NULL, name, NULL);
    must(cipher != NULL, "OpenSSL does not have a cipher (is the legacy provider installed?)");
    EVP_CIPHER_CTX *context = EVP_CIPHER_CTX_new();
    must(context != NULL, "EVP_CIPHER_CTX_new");
    uint8_t key[KEY] = {0};
    must(EVP_EncryptInit_ex(context, cipher, NULL, key, zero_vector), "EVP_EncryptInit_ex");
    must(EVP_CIPHER_CTX_set_padding(context, 0), "EVP_CIPHER_CTX_set_padding");
    EVP_CIPHER_free(cipher);
    return context;
}

static void set_key(EVP_CIPHER_CTX *context, const uint8_t *key)
{
    must(EVP_EncryptInit_ex(context, NULL, NULL, key, NULL), "EVP_EncryptInit_ex, key");
}

static void set_key_and_vector(EVP_CIPHER_CTX *context, const uint8_t *key)
{
    must(EVP_EncryptInit_ex(context, NULL, NULL, key, zero_vector), "EVP_EncryptInit_ex, key and vector");
}

static void update(EVP_CIPHER_CTX *context, uint8_t *out, const uint8_t *in, int length)
{
    int written = 0;
    must(EVP_EncryptUpdate(context, out, &written, in, length) && written == length, "EVP_EncryptUpdate");
}

/* The message, 80, then 00 up to a whole block; its length. */
static int pad(uint8_t *padded, const uint8_t *message, int length, int block)
{
    int whole = (length / block + 1) * block;
    memset(padded, 0, (size_t)whole);
    memcpy(padded, message, (size_t)length);
    padded[length] = 0x80;
    return whole;
}

/* The seal by OpenSSL's CBC mode with a zero vector; the key is set where there is one. */
static void openssl_seal(struct cipher *c, const uint8_t *key, const uint8_t *message, int length, uint8_t *seal)
{
    uint8_t padded[MOST_MESSAGE + 16], result[MOST_MESSAGE + 16];
    int whole = pad(padded, message, length, c->block);
    set_key_and_vector(c->cbc, key);
    update(c->cbc, result, padded, whole);
    memcpy(seal, result + whole - c->block, SEAL);
}

/* Comparison. */

static void compare_blocks(struct cipher *c)
{
    for (int i = 0; i < COMPARISONS; i++) {
        uint8_t key[KEY], ours[16], theirs[16], below[16];
        fill(key, KEY);
        fill(ours, (size_t)c->block);
        memcpy(below, ours, (size_t)c->block);
        c->below_evp(key, below);
        set_key(c->ecb, key);
        update(c->ecb, theirs, ours, c->block);
        must(c->encipher(key, KEY, ours, (size_t)c->block) == 0, "a block was refused");
        must(memcmp(ours, theirs, (size_t)c->block) == 0, "a block differs from OpenSSL's");
        must(memcmp(ours, below, (size_t)c->block) == 0, "a block differs from OpenSSL's below EVP");
    }
}

/* Many blocks a call, with the key set once. */
static void compare_bulk(struct cipher *c)
{
    uint8_t key[KEY], ours[BULK_BLOCKS * 16], theirs[BULK_BLOCKS * 16];
    fill(key, KEY);
    fill(ours, sizeof ours);
    set_key(c->ecb, key);
    update(c->ecb, theirs, ours, BULK_BLOCKS * c->block);
    for (int i = 0; i < BULK_BLOCKS; i++)
        must(c->encipher(key, KEY, ours + i * c->block, (size_t)c->block) == 0, "a block was refused");
    must(memcmp(ours, theirs, (size_t)(BULK_BLOCKS * c->block)) == 0, "many blocks a call differ from OpenSSL's");
}

static void compare_seals(struct cipher *c)
{
    for (int i = 0; i < COMPARISONS; i++) {
        uint8_t key[KEY], message[MOST_MESSAGE], ours[SEAL], theirs[SEAL];
        int length = i % (MOST_MESSAGE + 1);
        fill(key, KEY);
        fill(message, (size_t)length);
        openssl_seal(c, key, message, length, theirs);
        must(message_seal(c->algorithm, key, KEY, message, (size_t)length, ours, SEAL) == 0, "a seal was refused");
        must(memcmp(ours, theirs, SEAL) == 0, "a seal differs from OpenSSL's");
        openssl_seal(c, NULL, message, length, theirs);
        must(memcmp(ours, theirs, SEAL) == 0, "a seal with the key set before differs from OpenSSL's");
    }
}

/* Slices of another length are refused, and what they point to stays. */
static void compare_refusals(struct cipher *c)
{
    uint8_t key[64], bytes[64], before[64];
    fill(key, sizeof key);
    fill(bytes, sizeof bytes);
    memcpy(before, bytes, sizeof bytes);
    for (size_t n = 0; n < sizeof key; n++) {
        if (n != KEY)
            must(c->encipher(key, n, bytes, (size_t)c->block) == 1 && message_seal(c->algorithm, key, n, key, 1, bytes, SEAL) == 1, "a key was taken");
        if (n != (size_t)c->block)
            must(c->encipher(key, KEY, bytes, n) == 1, "a block was taken");
        if (n > MOST_MESSAGE)
            must(message_seal(c->algorithm, key, KEY, key, n, bytes, SEAL) == 1, "a message was taken");
        if (n != SEAL)
            must(message_seal(c->algorithm, key, KEY, key, 1, bytes, n) == 1, "room for a seal was taken");
    }
    must(message_seal(0x20, key, KEY, key, 1, bytes, SEAL) == 1, "an algorithm that is not registered was taken");
    must(memcmp(bytes, before, sizeof bytes) == 0, "a refused call changed bytes");
}

/* Measures: each does its work n times. */

static uint8_t timed_key[KEY], timed_block[16], timed_message[TIMED_MESSAGE], timed_seal[SEAL], bulk[BULK_BLOCKS * 16];

static void block_ours(struct cipher *c, long n)
{
    for (long i = 0; i < n; i++)
        must(c->encipher(timed_key, KEY, timed_block, (size_t)c->block) == 0, "a block was refused");
}

static void block_below_evp(struct cipher *c, long n)
{
    for (long i = 0; i < n; i++)
        c->below_evp(timed_key, timed_block);
}

static void block_fresh_key(struct cipher *c, long n)
{
    for (long i = 0; i < n; i++) {
        set_key(c->ecb, timed_key);
        update(c->ecb, timed_block, timed_block, c->block);
    }
}

static void block_key_once(struct cipher *c, long n)
{
    set_key(c->ecb, timed_key);
    for (long i = 0; i < n; i++)
        update(c->ecb, timed_block, timed_block, c->block);
}

static void block_bulk(struct cipher *c, long n)
{
    set_key(c->ecb, timed_key);
    for (long i = 0; i < n; i++)
        update(c->ecb, bulk, bulk, BULK_BLOCKS * c->block);
}

static void seal_ours(struct cipher *c, long n)
{
    for (long i = 0; i < n; i++) {
        must(message_seal(c->algorithm, timed_key, KEY, timed_message, TIMED_MESSAGE, timed_seal, SEAL) == 0, "a seal was refused");
        memcpy(timed_message, timed_seal, SEAL);
    }
}

static void seal_fresh_key(struct cipher *c, long n)
{
    for (long i = 0; i < n; i++) {
        openssl_seal(c, timed_key, timed_message, TIMED_MESSAGE, timed_seal);
        memcpy(timed_message, timed_seal, SEAL);
    }
}

static void seal_key_once(struct cipher *c, long n)
{
    set_key_and_vector(c->cbc, timed_key);
    for (long i = 0; i < n; i++) {
        openssl_seal(c, NULL, timed_message, TIMED_MESSAGE, timed_seal);
        memcpy(timed_message, timed_seal, SEAL);
    }
}

struct measure {
    const char *what;
    void (*work)(struct cipher *, long);
    int parts; /* blocks or seals that one turn does */
};

static const struct measure block_measures[] = {
    {"ours, key schedule for each block", block_ours, 1},
    {"OpenSSL without EVP, key set for each block", block_below_evp, 1},
    {"OpenSSL, key set for each block", block_fresh_key, 1},
    {"OpenSSL, key set once, one block a call", block_key_once, 1},
    {"OpenSSL, key set once, 256 blocks a call", block_bulk, BULK_BLOCKS},
};
static const struct measure seal_measures[] = {
    {"ours, key schedule for each block", seal_ours, 1},
    {"OpenSSL (CBC), key set for each seal", seal_fresh_key, 1},
    {"OpenSSL (CBC), key set once", seal_key_once, 1},
};
enum { BLOCK_MEASURES = sizeof block_measures / sizeof *block_measures, SEAL_MEASURES = sizeof seal_measures / sizeof *seal_measures };
enum { MEASURES = BLOCK_MEASURES + SEAL_MEASURES };

static const struct measure *measure_at(int m)
{
    return m < BLOCK_MEASURES ? &block_measures[m] : &seal_measures[m - BLOCK_MEASURES];
}

static double now_ns(void)
{
    struct timespec t;
    must(clock_gettime(CLOCK_MONOTONIC, &t) == 0, "clock_gettime");
    return (double)t.tv_sec * 1e9 + (double)t.tv_nsec;
}

static double timed(struct cipher *c, const struct measure *m, long n)
{
    double start = now_ns();
    m->work(c, n);
    return now_ns() - start;
}

static int by_size(const void *a, const void *b)
{
    double x = *(const double *)a, y = *(const double *)b;
    return (x > y) - (x < y);
}

/* The times of a measure's rounds, sorted: the first is the best, the middle one the median. The ratio is that of the best. */
static void table(const char *heading, const struct measure *measures, int count, double (*times)[ROUNDS])
{
    printf("\n%-46s %10s %10s %12s\n", heading, "best, ns", "median, ns", "ours / this");
    for (int m = 0; m < count; m++) {
        printf("  %-44s %10.1f %10.1f", measures[m].what, times[m][0], times[m][ROUNDS / 2]);
        if (m > 0)
            printf(" %12.2f", times[0][0] / times[m][0]);
        printf("\n");
    }
}

int main(void)
{
    must(OSSL_PROVIDER_load(NULL, "default") != NULL, "OpenSSL's default provider is missing");
    must(OSSL_PROVIDER_load(NULL, "legacy") != NULL, "OpenSSL's legacy provider, which has SEED, is missing");

    for (int i = 0; i < CIPHERS; i++) {
        struct cipher *c = &ciphers[i];
        c->ecb = opened(c->ecb_name);
        c->cbc = opened(c->cbc_name);
        compare_blocks(c);
        compare_bulk(c);
        compare_seals(c);
        compare_refusals(c);
        printf("%s: %d random blocks and %d random seals, of 0 to %d bytes, are the same on both sides\n", c->name, COMPARISONS, COMPARISONS,
               MOST_MESSAGE);
    }

    fill(timed_key, sizeof timed_key);
    fill(timed_block, sizeof timed_block);
    fill(timed_message, sizeof timed_message);
    fill(bulk, sizeof bulk);

    /* Warm up, and find how often a measure is to be done in a round. */
    long turns[CIPHERS][MEASURES];
    static double times[CIPHERS][MEASURES][ROUNDS];
    for (int i = 0; i < CIPHERS; i++)
        for (int m = 0; m < MEASURES; m++) {
            long n = 1;
            double took;
            while ((took = timed(&ciphers[i], measure_at(m), n)) < ROUND_NS / 2)
                n *= 2;
            turns[i][m] = (long)((double)n * ROUND_NS / took) + 1;
        }

    for (int round = 0; round < ROUNDS; round++)
        for (int i = 0; i < CIPHERS; i++)
            for (int m = 0; m < MEASURES; m++)
                times[i][m][round] = timed(&ciphers[i], measure_at(m), turns[i][m]) / (double)turns[i][m] / measure_at(m)->parts;
    for (int i = 0; i < CIPHERS; i++)
        for (int m = 0; m < MEASURES; m++)
            qsort(times[i][m], ROUNDS, sizeof(double), by_size);

    for (int i = 0; i < CIPHERS; i++) {
        struct cipher *c = &ciphers[i];
        char heading[64];
        snprintf(heading, sizeof heading, "%s, a block of %d bytes", c->name, c->block);
        table(heading, block_measures, BLOCK_MEASURES, times[i]);
        snprintf(heading, sizeof heading, "%s, the seal of %d bytes (%d blocks)", c->name, TIMED_MESSAGE, TIMED_MESSAGE / c->block + 1);
        table(heading, seal_measures, SEAL_MEASURES, times[i] + BLOCK_MEASURES);
        EVP_CIPHER_CTX_free(c->ecb);
        EVP_CIPHER_CTX_free(c->cbc);
    }
    return 0;
}
