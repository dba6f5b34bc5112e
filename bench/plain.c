/* Plain C: SHA-1 (FIPS 180-4), MD5 (RFC 1321), RC4 and XOR obfuscation, written the ordinary way. PREFIX names the copy, so that one file
   compiled by two compilers can be linked into one driver. */
#include <stddef.h>
#include <stdint.h>

#define JOIN(a, b) a##b
#define NAME(a, b) JOIN(a, b)

static uint32_t rotl(uint32_t x, int n) { return (x << n) | (x >> (32 - n)); }

static void tail(const uint8_t *m, size_t len, uint8_t end[128], size_t *size, int big)
{
    size_t k = len % 64;
    *size = k < 56 ? 64 : 128;
    for (size_t i = 0; i < 128; i++)
        end[i] = i < k ? m[len - k + i] : i == k ? 0x80 : 0;
    uint64_t bits = (uint64_t)len * 8;
    for (int i = 0; i < 8; i++)
        end[*size - 8 + i] = (uint8_t)(bits >> (big ? 56 - 8 * i : 8 * i));
}

static void sha1_block(uint32_t h[5], const uint8_t *p)
{
    uint32_t w[80], a = h[0], b = h[1], c = h[2], d = h[3], e = h[4];
    for (int t = 0; t < 16; t++)
        w[t] = (uint32_t)p[4 * t] << 24 | (uint32_t)p[4 * t + 1] << 16 | (uint32_t)p[4 * t + 2] << 8 | p[4 * t + 3];
    for (int t = 16; t < 80; t++)
        w[t] = rotl(w[t - 3] ^ w[t - 8] ^ w[t - 14] ^ w[t - 16], 1);
    for (int t = 0; t < 80; t++) {
        uint32_t f, k;
        if (t < 20) { f = (b & c) ^ (~b & d); k = 0x5a827999; }
        else if (t < 40) { f = b ^ c ^ d; k = 0x6ed9eba1; }
        else if (t < 60) { f = (b & c) ^ (b & d) ^ (c & d); k = 0x8f1bbcdc; }
        else { f = b ^ c ^ d; k = 0xca62c1d6; }
        uint32_t x = rotl(a, 5) + f + e + k + w[t];
        e = d; d = c; c = rotl(b, 30); b = a; a = x;
    }
    h[0] += a; h[1] += b; h[2] += c; h[3] += d; h[4] += e;
}

void NAME(PREFIX, sha1)(const uint8_t *m, size_t len, uint8_t out[20])
{
    uint32_t h[5] = {0x67452301, 0xefcdab89, 0x98badcfe, 0x10325476, 0xc3d2e1f0};
    uint8_t end[128];
    size_t size;
    for (size_t i = 0; i + 64 <= len; i += 64)
        sha1_block(h, m + i);
    tail(m, len, end, &size, 1);
    for (size_t i = 0; i < size; i += 64)
        sha1_block(h, end + i);
    for (int i = 0; i < 20; i++)
        out[i] = (uint8_t)(h[i / 4] >> (24 - 8 * (i % 4)));
}

#define STEP(f, a, b, c, d, k, s, t) a = b + rotl(a + (f) + x[k] + t, s)
#define F(x, y, z) (((x) & (y)) | (~(x) & (z)))
#define G(x, y, z) (((x) & (z)) | ((y) & ~(z)))
#define H(x, y, z) ((x) ^ (y) ^ (z))
#define I(x, y, z) ((y) ^ ((x) | ~(z)))
#define FOUR(f, k0, s0, t0, k1, s1, t1, k2, s2, t2, k3, s3, t3) \
    STEP(f(b, c, d), a, b, c, d, k0, s0, t0); STEP(f(a, b, c), d, a, b, c, k1, s1, t1); \
    STEP(f(d, a, b), c, d, a, b, k2, s2, t2); STEP(f(c, d, a), b, c, d, a, k3, s3, t3);

static void md5_block(uint32_t h[4], const uint8_t *p)
{
    uint32_t x[16], a = h[0], b = h[1], c = h[2], d = h[3];
    for (int i = 0; i < 16; i++)
        x[i] = p[4 * i] | (uint32_t)p[4 * i + 1] << 8 | (uint32_t)p[4 * i + 2] << 16 | (uint32_t)p[4 * i + 3] << 24;
    FOUR(F, 0, 7, 0xd76aa478, 1, 12, 0xe8c7b756, 2, 17, 0x242070db, 3, 22, 0xc1bdceee)
    FOUR(F, 4, 7, 0xf57c0faf, 5, 12, 0x4787c62a, 6, 17, 0xa8304613, 7, 22, 0xfd469501)
    FOUR(F, 8, 7, 0x698098d8, 9, 12, 0x8b44f7af, 10, 17, 0xffff5bb1, 11, 22, 0x895cd7be)
    FOUR(F, 12, 7, 0x6b901122, 13, 12, 0xfd987193, 14, 17, 0xa679438e, 15, 22, 0x49b40821)
    FOUR(G, 1, 5, 0xf61e2562, 6, 9, 0xc040b340, 11, 14, 0x265e5a51, 0, 20, 0xe9b6c7aa)
    FOUR(G, 5, 5, 0xd62f105d, 10, 9, 0x02441453, 15, 14, 0xd8a1e681, 4, 20, 0xe7d3fbc8)
    FOUR(G, 9, 5, 0x21e1cde6, 14, 9, 0xc33707d6, 3, 14, 0xf4d50d87, 8, 20, 0x455a14ed)
    FOUR(G, 13, 5, 0xa9e3e905, 2, 9, 0xfcefa3f8, 7, 14, 0x676f02d9, 12, 20, 0x8d2a4c8a)
    FOUR(H, 5, 4, 0xfffa3942, 8, 11, 0x8771f681, 11, 16, 0x6d9d6122, 14, 23, 0xfde5380c)
    FOUR(H, 1, 4, 0xa4beea44, 4, 11, 0x4bdecfa9, 7, 16, 0xf6bb4b60, 10, 23, 0xbebfbc70)
    FOUR(H, 13, 4, 0x289b7ec6, 0, 11, 0xeaa127fa, 3, 16, 0xd4ef3085, 6, 23, 0x04881d05)
    FOUR(H, 9, 4, 0xd9d4d039, 12, 11, 0xe6db99e5, 15, 16, 0x1fa27cf8, 2, 23, 0xc4ac5665)
    FOUR(I, 0, 6, 0xf4292244, 7, 10, 0x432aff97, 14, 15, 0xab9423a7, 5, 21, 0xfc93a039)
    FOUR(I, 12, 6, 0x655b59c3, 3, 10, 0x8f0ccc92, 10, 15, 0xffeff47d, 1, 21, 0x85845dd1)
    FOUR(I, 8, 6, 0x6fa87e4f, 15, 10, 0xfe2ce6e0, 6, 15, 0xa3014314, 13, 21, 0x4e0811a1)
    FOUR(I, 4, 6, 0xf7537e82, 11, 10, 0xbd3af235, 2, 15, 0x2ad7d2bb, 9, 21, 0xeb86d391)
    h[0] += a; h[1] += b; h[2] += c; h[3] += d;
}

void NAME(PREFIX, md5)(const uint8_t *m, size_t len, uint8_t out[16])
{
    uint32_t h[4] = {0x67452301, 0xefcdab89, 0x98badcfe, 0x10325476};
    uint8_t end[128];
    size_t size;
    for (size_t i = 0; i + 64 <= len; i += 64)
        md5_block(h, m + i);
    tail(m, len, end, &size, 0);
    for (size_t i = 0; i < size; i += 64)
        md5_block(h, end + i);
    for (int i = 0; i < 16; i++)
        out[i] = (uint8_t)(h[i / 4] >> (8 * (i % 4)));
}

void NAME(PREFIX, rc4)(const uint8_t *key, size_t key_len, const uint8_t *src, uint8_t *dst, size_t len)
{
    uint8_t s[256];
    for (int i = 0; i < 256; i++)
        s[i] = (uint8_t)i;
    for (unsigned i = 0, j = 0; i < 256; i++) {
        uint8_t a = s[i];
        j = (j + a + key[i % key_len]) % 256;
        s[i] = s[j];
        s[j] = a;
    }
    uint8_t i = 0, j = 0;
    for (size_t k = 0; k < len; k++) {
        i++;
        uint8_t a = s[i];
        j += a;
        uint8_t b = s[j];
        s[i] = b;
        s[j] = a;
        dst[k] = src[k] ^ s[(uint8_t)(a + b)];
    }
}

void NAME(PREFIX, xor)(const uint8_t array[16], size_t index, const uint8_t *src, uint8_t *dst, size_t len)
{
    for (size_t k = 0; k < len; k++) {
        uint8_t x = src[k] ^ array[(index + k) % 16];
        dst[k] = (uint8_t)(x >> 5 | x << 3);
    }
}
