/* The other side of tools/bench-hash.sh: portable C, and OpenSSL, on the same chain of 1,024-byte hashes as crates/bench_hashes.
 * bench-hash c-sha256|openssl-sha256|openssl-sha3 COUNT */
#include <openssl/evp.h>
#include <stdint.h>
#include <stdio.h>
#include <stdlib.h>
#include <string.h>

static const uint32_t K[64] = {
    0x428a2f98, 0x71374491, 0xb5c0fbcf, 0xe9b5dba5, 0x3956c25b, 0x59f111f1, 0x923f82a4, 0xab1c5ed5,
    0xd807aa98, 0x12835b01, 0x243185be, 0x550c7dc3, 0x72be5d74, 0x80deb1fe, 0x9bdc06a7, 0xc19bf174,
    0xe49b69c1, 0xefbe4786, 0x0fc19dc6, 0x240ca1cc, 0x2de92c6f, 0x4a7484aa, 0x5cb0a9dc, 0x76f988da,
    0x983e5152, 0xa831c66d, 0xb00327c8, 0xbf597fc7, 0xc6e00bf3, 0xd5a79147, 0x06ca6351, 0x14292967,
    0x27b70a85, 0x2e1b2138, 0x4d2c6dfc, 0x53380d13, 0x650a7354, 0x766a0abb, 0x81c2c92e, 0x92722c85,
    0xa2bfe8a1, 0xa81a664b, 0xc24b8b70, 0xc76c51a3, 0xd192e819, 0xd6990624, 0xf40e3585, 0x106aa070,
    0x19a4c116, 0x1e376c08, 0x2748774c, 0x34b0bcb5, 0x391c0cb3, 0x4ed8aa4a, 0x5b9cca4f, 0x682e6ff3,
    0x748f82ee, 0x78a5636f, 0x84c87814, 0x8cc70208, 0x90befffa, 0xa4506ceb, 0xbef9a3f7, 0xc67178f2,
};

static uint32_t rotr(uint32_t x, int n) { return x >> n | x << (32 - n); }

/* one round, with the working variables named so that none has to move */
#define ROUND(a, b, c, d, e, f, g, h, t) do { \
    uint32_t t1 = h + (rotr(e, 6) ^ rotr(e, 11) ^ rotr(e, 25)) + ((e & f) ^ (~e & g)) + K[t] + w[t]; \
    uint32_t t2 = (rotr(a, 2) ^ rotr(a, 13) ^ rotr(a, 22)) + ((a & b) ^ (a & c) ^ (b & c)); \
    d += t1; h = t1 + t2; } while (0)

static void compress(uint32_t s[8], const uint8_t *p) {
    uint32_t w[64];
    for (int t = 0; t < 16; t++)
        w[t] = (uint32_t)p[4 * t] << 24 | (uint32_t)p[4 * t + 1] << 16 | (uint32_t)p[4 * t + 2] << 8 | p[4 * t + 3];
    for (int t = 16; t < 64; t++) {
        uint32_t x = w[t - 2], y = w[t - 15];
        w[t] = (rotr(x, 17) ^ rotr(x, 19) ^ x >> 10) + w[t - 7] + (rotr(y, 7) ^ rotr(y, 18) ^ y >> 3) + w[t - 16];
    }
    uint32_t a = s[0], b = s[1], c = s[2], d = s[3], e = s[4], f = s[5], g = s[6], h = s[7];
    for (int t = 0; t < 64; t += 8) {
        ROUND(a, b, c, d, e, f, g, h, t);
        ROUND(h, a, b, c, d, e, f, g, t + 1);
        ROUND(g, h, a, b, c, d, e, f, t + 2);
        ROUND(f, g, h, a, b, c, d, e, t + 3);
        ROUND(e, f, g, h, a, b, c, d, t + 4);
        ROUND(d, e, f, g, h, a, b, c, t + 5);
        ROUND(c, d, e, f, g, h, a, b, t + 6);
        ROUND(b, c, d, e, f, g, h, a, t + 7);
    }
    s[0] += a; s[1] += b; s[2] += c; s[3] += d; s[4] += e; s[5] += f; s[6] += g; s[7] += h;
}

__attribute__((noinline)) static void portable(const uint8_t *m, size_t n, uint8_t out[32]) {
    uint32_t s[8] = {0x6a09e667, 0xbb67ae85, 0x3c6ef372, 0xa54ff53a, 0x510e527f, 0x9b05688c, 0x1f83d9ab, 0x5be0cd19};
    size_t i = 0;
    for (; i + 64 <= n; i += 64) compress(s, m + i);
    uint8_t last[128] = {0};
    size_t rest = n - i, end = rest < 56 ? 64 : 128;
    memcpy(last, m + i, rest);
    last[rest] = 0x80;
    for (int k = 0; k < 8; k++) last[end - 1 - k] = (uint8_t)((uint64_t)n * 8 >> 8 * k);
    compress(s, last);
    if (end == 128) compress(s, last + 64);
    for (int k = 0; k < 32; k++) out[k] = (uint8_t)(s[k / 4] >> (24 - 8 * (k % 4)));
}

static EVP_MD_CTX *ctx;
static EVP_MD *md;

static void openssl(const uint8_t *m, size_t n, uint8_t out[32]) {
    EVP_DigestInit_ex2(ctx, md, NULL);
    EVP_DigestUpdate(ctx, m, n);
    EVP_DigestFinal_ex(ctx, out, NULL);
}

int main(int argc, char **argv) {
    if (argc != 3) return 2;
    unsigned long count = strtoul(argv[2], NULL, 10);
    void (*hash)(const uint8_t *, size_t, uint8_t *) = strcmp(argv[1], "c-sha256") ? openssl : portable;
    ctx = EVP_MD_CTX_new();
    md = EVP_MD_fetch(NULL, strcmp(argv[1], "openssl-sha3") ? "SHA256" : "SHA3-256", NULL);
    static uint8_t text[1024];
    uint8_t d[32];
    for (unsigned long i = 0; i < count; i++) {
        hash(text, sizeof text, d);
        text[i % 1024] = d[0];
        text[0] = d[31];
    }
    hash(text, sizeof text, d);
    for (int i = 0; i < 32; i++) printf("%s%d", i ? ", " : "[", d[i]);
    puts("]");
}
