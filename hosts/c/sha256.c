/* SHA-256 (FIPS 180-4) of bytes that come one after another. */
#include "stream.h"

#define ROTATED(word, count) ((word) >> (count) | (word) << (32 - (count)))

static const uint32_t round_word[64] = {
    0x428a2f98, 0x71374491, 0xb5c0fbcf, 0xe9b5dba5, 0x3956c25b, 0x59f111f1, 0x923f82a4, 0xab1c5ed5, 0xd807aa98, 0x12835b01, 0x243185be,
    0x550c7dc3, 0x72be5d74, 0x80deb1fe, 0x9bdc06a7, 0xc19bf174, 0xe49b69c1, 0xefbe4786, 0x0fc19dc6, 0x240ca1cc, 0x2de92c6f, 0x4a7484aa,
    0x5cb0a9dc, 0x76f988da, 0x983e5152, 0xa831c66d, 0xb00327c8, 0xbf597fc7, 0xc6e00bf3, 0xd5a79147, 0x06ca6351, 0x14292967, 0x27b70a85,
    0x2e1b2138, 0x4d2c6dfc, 0x53380d13, 0x650a7354, 0x766a0abb, 0x81c2c92e, 0x92722c85, 0xa2bfe8a1, 0xa81a664b, 0xc24b8b70, 0xc76c51a3,
    0xd192e819, 0xd6990624, 0xf40e3585, 0x106aa070, 0x19a4c116, 0x1e376c08, 0x2748774c, 0x34b0bcb5, 0x391c0cb3, 0x4ed8aa4a, 0x5b9cca4f,
    0x682e6ff3, 0x748f82ee, 0x78a5636f, 0x84c87814, 0x8cc70208, 0x90befffa, 0xa4506ceb, 0xbef9a3f7, 0xc67178f2,
};

void digest_begin(struct digest *digest) {
    static const uint32_t first[8] = { 0x6a09e667, 0xbb67ae85, 0x3c6ef372, 0xa54ff53a, 0x510e527f, 0x9b05688c, 0x1f83d9ab, 0x5be0cd19 };
    memcpy(digest->state, first, sizeof first);
    digest->size = 0;
}

/* Spreads the 64 bytes of a block over the words of its rounds. */
static void spread(uint32_t word[64], const unsigned char *block) {
    for (int at = 0; at < 16; at++, block += 4)
        word[at] = (uint32_t)block[0] << 24 | (uint32_t)block[1] << 16 | (uint32_t)block[2] << 8 | block[3];
    for (int at = 16; at < 64; at++) {
        uint32_t early = word[at - 15], late = word[at - 2];
        uint32_t one = ROTATED(early, 7) ^ ROTATED(early, 18) ^ early >> 3, two = ROTATED(late, 17) ^ ROTATED(late, 19) ^ late >> 10;
        word[at] = word[at - 16] + one + word[at - 7] + two;
    }
}

static void mix(uint32_t state[8], const unsigned char *block) {
    uint32_t word[64], now[8];
    spread(word, block);
    memcpy(now, state, sizeof now);
    for (int at = 0; at < 64; at++) {
        uint32_t e = now[4], a = now[0];
        uint32_t choice = (e & now[5]) ^ (~e & now[6]), most = (a & now[1]) ^ (a & now[2]) ^ (now[1] & now[2]);
        uint32_t one = now[7] + (ROTATED(e, 6) ^ ROTATED(e, 11) ^ ROTATED(e, 25)) + choice + round_word[at] + word[at];
        uint32_t two = (ROTATED(a, 2) ^ ROTATED(a, 13) ^ ROTATED(a, 22)) + most;
        memmove(now + 1, now, 7 * sizeof *now);
        now[4] += one;
        now[0] = one + two;
    }
    for (int at = 0; at < 8; at++) state[at] += now[at];
}

void digest_add(struct digest *digest, const void *bytes, size_t size) {
    const unsigned char *from = bytes;
    size_t held = digest->size % 64;
    digest->size += size;
    while (size > 0) {
        size_t some = size < 64 - held ? size : 64 - held;
        memcpy(digest->block + held, from, some);
        from += some;
        size -= some;
        held = (held + some) % 64;
        if (held == 0) mix(digest->state, digest->block);
    }
}

void digest_text(const struct digest *given, char text[DIGEST_TEXT]) {
    struct digest digest = *given;
    unsigned char end[72] = { 0x80 }, *place = end + (digest.size % 64 < 56 ? 56 : 120) - digest.size % 64;
    uint64_t bits = digest.size * 8;
    for (int at = 0; at < 8; at++) place[at] = (unsigned char)(bits >> (56 - 8 * at));
    digest_add(&digest, end, (size_t)(place - end) + 8);
    for (int at = 0; at < 8; at++) snprintf(text + 8 * at, 9, "%08x", (unsigned)digest.state[at]);
}
