/* Plain C SHA-1 (FIPS 180-4) and HMAC-SHA1 (RFC 2104), the ordinary C that
   bench times the proved code against. With UNROLLED it is the same with the
   rounds written out and the schedule worked out within them, which compilers
   make faster code of; the functions then have another name. */

#ifndef PLAIN_SHA1_H
#define PLAIN_SHA1_H

#include <stddef.h>
#include <stdint.h>

#ifdef UNROLLED
#define plain_sha1 unrolled_sha1
#define plain_hmac_sha1 unrolled_hmac_sha1
#endif

#define PLAIN_SHA1_BLOCK 64
#define PLAIN_SHA1_DIGEST 20

void plain_sha1(const uint8_t *m, size_t n, uint8_t out[PLAIN_SHA1_DIGEST]);
void plain_hmac_sha1(const uint8_t *key, size_t k, const uint8_t *m, size_t n,
                     uint8_t out[PLAIN_SHA1_DIGEST]);

#endif
