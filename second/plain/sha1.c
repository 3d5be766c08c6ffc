/* Plain C SHA-1 and HMAC-SHA1. The sections cited are of FIPS 180-4, except
   where RFC 2104 is named. */

#include "sha1.h"

#include <string.h>

#define BLOCK PLAIN_SHA1_BLOCK
#define DIGEST PLAIN_SHA1_DIGEST

typedef struct {
    uint32_t state[5];
    uint64_t length; /* bytes of message taken so far */
    uint8_t pending[PLAIN_SHA1_BLOCK]; /* the block not yet full */
} plain_sha1_ctx;

#define ROTL(x, n) (((x) << (n)) | ((x) >> (32 - (n))))

/* The functions of section 4.1.1; Ch and Maj in forms that need one operation
   less. */
#define CH(x, y, z) ((z) ^ ((x) & ((y) ^ (z))))
#define PARITY(x, y, z) ((x) ^ (y) ^ (z))
#define MAJ(x, y, z) (((x) & (y)) | ((z) & ((x) | (y))))

static uint32_t load32(const uint8_t *p)
{
    return (uint32_t)p[0] << 24 | (uint32_t)p[1] << 16 | (uint32_t)p[2] << 8 | p[3];
}

static void store32(uint8_t *p, uint32_t x)
{
    p[0] = (uint8_t)(x >> 24);
    p[1] = (uint8_t)(x >> 16);
    p[2] = (uint8_t)(x >> 8);
    p[3] = (uint8_t)x;
}

/* Section 6.1.2, step 4. */
static void add(uint32_t state[5], uint32_t a, uint32_t b, uint32_t c, uint32_t d, uint32_t e)
{
    state[0] += a;
    state[1] += b;
    state[2] += c;
    state[3] += d;
    state[4] += e;
}

#ifdef UNROLLED

/* Word t of the message schedule, section 6.1.2, step 1. Computed as the rounds
   need it: a loop of its own over the schedule runs slower, as compilers turn
   it into vector code that waits for its own stores. */
static inline uint32_t schedule(uint32_t w[80], const uint8_t *block, int t)
{
    if (t < 16) {
        w[t] = load32(block + 4 * t);
    } else {
        uint32_t x = w[t - 3] ^ w[t - 8] ^ w[t - 14] ^ w[t - 16];
        w[t] = ROTL(x, 1);
    }
    return w[t];
}

/* Round t, section 6.1.2, step 3. The variables' values stay where they are
   and their names move instead: the new a is in what was e. */
#define ROUND(f, k, t, a, b, c, d, e)                                  \
    do {                                                               \
        e += ROTL(a, 5) + f(b, c, d) + (k) + schedule(w, block, t);    \
        b = ROTL(b, 30);                                               \
    } while (0)

/* After five rounds the names are back in place. */
#define FIVE_ROUNDS(f, k, t)                 \
    do {                                     \
        ROUND(f, k, (t), a, b, c, d, e);     \
        ROUND(f, k, (t) + 1, e, a, b, c, d); \
        ROUND(f, k, (t) + 2, d, e, a, b, c); \
        ROUND(f, k, (t) + 3, c, d, e, a, b); \
        ROUND(f, k, (t) + 4, b, c, d, e, a); \
    } while (0)

/* The rounds that share a function and a constant. */
#define TWENTY_ROUNDS(f, k, t)        \
    do {                              \
        FIVE_ROUNDS(f, k, (t));       \
        FIVE_ROUNDS(f, k, (t) + 5);   \
        FIVE_ROUNDS(f, k, (t) + 10);  \
        FIVE_ROUNDS(f, k, (t) + 15);  \
    } while (0)

/* The hash computation for one block, section 6.1.2, with the constants of
   section 4.2.1. */
static void compress(uint32_t state[5], const uint8_t *block)
{
    uint32_t w[80];
    uint32_t a = state[0], b = state[1], c = state[2], d = state[3], e = state[4];

    TWENTY_ROUNDS(CH, 0x5a827999, 0);
    TWENTY_ROUNDS(PARITY, 0x6ed9eba1, 20);
    TWENTY_ROUNDS(MAJ, 0x8f1bbcdc, 40);
    TWENTY_ROUNDS(PARITY, 0xca62c1d6, 60);

    add(state, a, b, c, d, e);
}

#else

/* Twenty rounds from t on, section 6.1.2, step 3. */
#define TWENTY_ROUNDS(f, k, from)                                    \
    do {                                                             \
        for (t = (from); t < (from) + 20; t++) {                     \
            uint32_t sum = ROTL(a, 5) + f(b, c, d) + e + (k) + w[t]; \
            e = d;                                                   \
            d = c;                                                   \
            c = ROTL(b, 30);                                         \
            b = a;                                                   \
            a = sum;                                                 \
        }                                                            \
    } while (0)

/* The hash computation for one block, section 6.1.2, as the standard writes
   it: the whole message schedule, then the rounds. */
static void compress(uint32_t state[5], const uint8_t *block)
{
    uint32_t w[80];
    uint32_t a = state[0], b = state[1], c = state[2], d = state[3], e = state[4];
    int t;

    for (t = 0; t < 16; t++)
        w[t] = load32(block + 4 * t);
    for (; t < 80; t++) {
        uint32_t x = w[t - 3] ^ w[t - 8] ^ w[t - 14] ^ w[t - 16];
        w[t] = ROTL(x, 1);
    }
    TWENTY_ROUNDS(CH, 0x5a827999, 0);
    TWENTY_ROUNDS(PARITY, 0x6ed9eba1, 20);
    TWENTY_ROUNDS(MAJ, 0x8f1bbcdc, 40);
    TWENTY_ROUNDS(PARITY, 0xca62c1d6, 60);
    add(state, a, b, c, d, e);
}

#endif

static void plain_sha1_init(plain_sha1_ctx *ctx)
{
    /* Section 5.3.1. */
    ctx->state[0] = 0x67452301;
    ctx->state[1] = 0xefcdab89;
    ctx->state[2] = 0x98badcfe;
    ctx->state[3] = 0x10325476;
    ctx->state[4] = 0xc3d2e1f0;
    ctx->length = 0;
}

static void plain_sha1_update(plain_sha1_ctx *ctx, const uint8_t *m, size_t n)
{
    size_t filled = ctx->length % BLOCK;

    if (n == 0) /* m may be a null pointer */
        return;
    ctx->length += n;
    if (filled > 0) {
        size_t room = BLOCK - filled;
        if (n < room) {
            memcpy(ctx->pending + filled, m, n);
            return;
        }
        memcpy(ctx->pending + filled, m, room);
        compress(ctx->state, ctx->pending);
        m += room;
        n -= room;
    }
    for (; n >= BLOCK; m += BLOCK, n -= BLOCK)
        compress(ctx->state, m);
    memcpy(ctx->pending, m, n);
}

/* Pads the message as section 5.1.1 says. */
static void plain_sha1_final(plain_sha1_ctx *ctx, uint8_t out[DIGEST])
{
    uint64_t bits = ctx->length * 8;
    size_t filled = ctx->length % BLOCK;
    int i;

    ctx->pending[filled++] = 0x80;
    if (filled > BLOCK - 8) {
        memset(ctx->pending + filled, 0, BLOCK - filled);
        compress(ctx->state, ctx->pending);
        filled = 0;
    }
    memset(ctx->pending + filled, 0, BLOCK - 8 - filled);
    store32(ctx->pending + BLOCK - 8, (uint32_t)(bits >> 32));
    store32(ctx->pending + BLOCK - 4, (uint32_t)bits);
    compress(ctx->state, ctx->pending);
    for (i = 0; i < 5; i++)
        store32(out + 4 * i, ctx->state[i]);
}

void plain_sha1(const uint8_t *m, size_t n, uint8_t out[DIGEST])
{
    plain_sha1_ctx ctx;

    plain_sha1_init(&ctx);
    plain_sha1_update(&ctx, m, n);
    plain_sha1_final(&ctx, out);
}

/* One of the two hashes of RFC 2104, section 2: the block-long key xor pad,
   followed by m. */
static void hash_padded(const uint8_t key[BLOCK], uint8_t pad, const uint8_t *m, size_t n,
                        uint8_t out[DIGEST])
{
    plain_sha1_ctx ctx;
    uint8_t block[BLOCK];
    int i;

    for (i = 0; i < BLOCK; i++)
        block[i] = key[i] ^ pad;
    plain_sha1_init(&ctx);
    plain_sha1_update(&ctx, block, BLOCK);
    plain_sha1_update(&ctx, m, n);
    plain_sha1_final(&ctx, out);
}

void plain_hmac_sha1(const uint8_t *key, size_t k, const uint8_t *m, size_t n,
                     uint8_t out[DIGEST])
{
    uint8_t block_key[BLOCK] = {0};
    uint8_t inner[DIGEST];

    if (k > BLOCK)
        plain_sha1(key, k, block_key);
    else if (k > 0)
        memcpy(block_key, key, k);
    hash_padded(block_key, 0x36, m, n, inner);
    hash_padded(block_key, 0x5c, inner, DIGEST, out);
}
