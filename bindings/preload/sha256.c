#include "sha256.h"

#include <string.h>

static const uint32_t constants[64] = {
    0x428a2f98, 0x71374491, 0xb5c0fbcf, 0xe9b5dba5, 0x3956c25b, 0x59f111f1, 0x923f82a4, 0xab1c5ed5, 0xd807aa98,
    0x12835b01, 0x243185be, 0x550c7dc3, 0x72be5d74, 0x80deb1fe, 0x9bdc06a7, 0xc19bf174, 0xe49b69c1, 0xefbe4786,
    0x0fc19dc6, 0x240ca1cc, 0x2de92c6f, 0x4a7484aa, 0x5cb0a9dc, 0x76f988da, 0x983e5152, 0xa831c66d, 0xb00327c8,
    0xbf597fc7, 0xc6e00bf3, 0xd5a79147, 0x06ca6351, 0x14292967, 0x27b70a85, 0x2e1b2138, 0x4d2c6dfc, 0x53380d13,
    0x650a7354, 0x766a0abb, 0x81c2c92e, 0x92722c85, 0xa2bfe8a1, 0xa81a664b, 0xc24b8b70, 0xc76c51a3, 0xd192e819,
    0xd6990624, 0xf40e3585, 0x106aa070, 0x19a4c116, 0x1e376c08, 0x2748774c, 0x34b0bcb5, 0x391c0cb3, 0x4ed8aa4a,
    0x5b9cca4f, 0x682e6ff3, 0x748f82ee, 0x78a5636f, 0x84c87814, 0x8cc70208, 0x90befffa, 0xa4506ceb, 0xbef9a3f7,
    0xc67178f2};

static uint32_t turned(uint32_t x, int by) { return x >> by | x << (32 - by); }

static void take_block(sha256 *at, const uint8_t *block) {
  uint32_t w[64], v[8];
  for (int i = 0; i < 16; i++) {
    memcpy(&w[i], block + 4 * i, 4);
    w[i] = __builtin_bswap32(w[i]);
  }
  for (int i = 16; i < 64; i++) {
    uint32_t a = turned(w[i - 15], 7) ^ turned(w[i - 15], 18) ^ w[i - 15] >> 3;
    uint32_t b = turned(w[i - 2], 17) ^ turned(w[i - 2], 19) ^ w[i - 2] >> 10;
    w[i] = w[i - 16] + a + w[i - 7] + b;
  }
  memcpy(v, at->state, sizeof v);
  for (int i = 0; i < 64; i++) {
    uint32_t a = turned(v[4], 6) ^ turned(v[4], 11) ^ turned(v[4], 25);
    uint32_t b = turned(v[0], 2) ^ turned(v[0], 13) ^ turned(v[0], 22);
    uint32_t first = v[7] + a + ((v[4] & v[5]) ^ (~v[4] & v[6])) + constants[i] + w[i];
    uint32_t second = b + ((v[0] & v[1]) ^ (v[0] & v[2]) ^ (v[1] & v[2]));
    memmove(v + 1, v, 7 * sizeof *v);
    v[4] += first;
    v[0] = first + second;
  }
  for (int i = 0; i < 8; i++) at->state[i] += v[i];
}

void sha256_begin(sha256 *at) {
  static const uint32_t first[8] = {0x6a09e667, 0xbb67ae85, 0x3c6ef372, 0xa54ff53a,
                                    0x510e527f, 0x9b05688c, 0x1f83d9ab, 0x5be0cd19};
  memcpy(at->state, first, sizeof first);
  at->length = 0;
}

void sha256_add(sha256 *at, const void *bytes, size_t length) {
  const uint8_t *from = bytes;
  size_t held = at->length % 64;
  at->length += length;
  if (held + length < 64) {
    memcpy(at->block + held, from, length);
    return;
  }
  if (held) {
    memcpy(at->block + held, from, 64 - held);
    take_block(at, at->block);
    from += 64 - held;
    length -= 64 - held;
  }
  for (; length >= 64; from += 64, length -= 64) take_block(at, from);
  memcpy(at->block, from, length);
}

void sha256_end(sha256 *at, char text[65]) {
  static const char digits[] = "0123456789abcdef";
  uint64_t bits = __builtin_bswap64(at->length * 8);
  uint8_t one = 0x80, zero = 0;
  sha256_add(at, &one, 1);
  while (at->length % 64 != 56) sha256_add(at, &zero, 1);
  sha256_add(at, &bits, 8);
  for (int i = 0; i < 64; i++) text[i] = digits[at->state[i / 8] >> (28 - 4 * (i % 8)) & 15];
  text[64] = 0;
}
