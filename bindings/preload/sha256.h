/* SHA-256, by FIPS 180-4. */
#ifndef DETIO_SHA256_H
#define DETIO_SHA256_H

#include <stddef.h>
#include <stdint.h>

typedef struct {
  uint32_t state[8];
  uint64_t length;
  uint8_t block[64];
} sha256;

void sha256_begin(sha256 *);
void sha256_add(sha256 *, const void *bytes, size_t length);
/* The digest as 64 hexadecimal digits and a NUL. */
void sha256_end(sha256 *, char text[65]);

#endif
