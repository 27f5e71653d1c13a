/* The hash of a name for NSEC3 (RFC 5155 section 5) in plain C: nsec3_hash OWNER SALT ITERATIONS, where the owner's wire form in lowercase
   and the salt are hexadecimal digits. It prints the hash in hexadecimal digits. SHA-1 is that of FIPS 180-4 section 6.1. */
#include <stdint.h>
#include <stdio.h>
#include <stdlib.h>
#include <string.h>

static uint32_t rotate(uint32_t word, int bits) { return word << bits | word >> (32 - bits); }

static void compress(uint32_t state[5], const uint8_t *block) {
    uint32_t w[80];
    for (int t = 0; t < 16; t++)
        w[t] = (uint32_t)block[4 * t] << 24 | block[4 * t + 1] << 16 | block[4 * t + 2] << 8 | block[4 * t + 3];
    for (int t = 16; t < 80; t++) w[t] = rotate(w[t - 3] ^ w[t - 8] ^ w[t - 14] ^ w[t - 16], 1);
    uint32_t a = state[0], b = state[1], c = state[2], d = state[3], e = state[4];
    for (int t = 0; t < 80; t++) {
        uint32_t f, k;
        if (t < 20) f = (b & c) | (~b & d), k = 0x5a827999;
        else if (t < 40) f = b ^ c ^ d, k = 0x6ed9eba1;
        else if (t < 60) f = (b & c) | (b & d) | (c & d), k = 0x8f1bbcdc;
        else f = b ^ c ^ d, k = 0xca62c1d6;
        uint32_t next = rotate(a, 5) + f + e + k + w[t];
        e = d, d = c, c = rotate(b, 30), b = a, a = next;
    }
    state[0] += a, state[1] += b, state[2] += c, state[3] += d, state[4] += e;
}

/* SHA-1 of at most 510 octets. */
static void sha1(const uint8_t *octets, size_t size, uint8_t hash[20]) {
    uint32_t state[5] = {0x67452301, 0xefcdab89, 0x98badcfe, 0x10325476, 0xc3d2e1f0};
    uint8_t padded[576] = {0};
    size_t blocks = (size + 9 + 63) / 64;
    memcpy(padded, octets, size);
    padded[size] = 0x80;
    for (int i = 0; i < 8; i++) padded[64 * blocks - 1 - i] = (uint8_t)((uint64_t)size * 8 >> 8 * i);
    for (size_t i = 0; i < blocks; i++) compress(state, padded + 64 * i);
    for (int i = 0; i < 20; i++) hash[i] = (uint8_t)(state[i / 4] >> (24 - 8 * (i % 4)));
}

static size_t octets_of(const char *digits, uint8_t *octets) {
    size_t size = strlen(digits) / 2;
    for (size_t i = 0; i < size; i++) {
        char pair[3] = {digits[2 * i], digits[2 * i + 1], 0};
        octets[i] = (uint8_t)strtoul(pair, NULL, 16);
    }
    return size;
}

int main(int count, char **words) {
    if (count != 4 || strlen(words[1]) > 510 || strlen(words[2]) > 510) return 1;
    uint8_t input[510], salt[255], hash[20];
    size_t owner_size = octets_of(words[1], input), salt_size = octets_of(words[2], salt);
    memcpy(input + owner_size, salt, salt_size);
    sha1(input, owner_size + salt_size, hash);
    for (long done = 0, wanted = atol(words[3]); done < wanted; done++) {
        memcpy(input, hash, 20);
        memcpy(input + 20, salt, salt_size);
        sha1(input, 20 + salt_size, hash);
    }
    for (int i = 0; i < 20; i++) printf("%02x", hash[i]);
    putchar('\n');
    return 0;
}
