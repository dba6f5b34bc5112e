/* Plain C that opens a protected workbook stream as sheet_open does, with OpenSSL's RC4, SHA-1 and MD5, written the ordinary way: walk the records,
   read the lock, check the password, decipher, put headers and clear parts back, blank FILEPASS. It takes sound streams and passwords of ASCII; what
   it lacks are the refusals. PREFIX names the copy. */
#include <openssl/md5.h>
#include <openssl/rc4.h>
#include <openssl/sha.h>
#include <stddef.h>
#include <stdint.h>
#include <string.h>

#define JOIN(a, b) a##b
#define NAME(a, b) JOIN(a, b)

static unsigned le16(const uint8_t *p) { return p[0] | p[1] << 8; }
static uint32_t le32(const uint8_t *p) { return le16(p) | (uint32_t)le16(p + 2) << 16; }

static int never_encrypted(unsigned id)
{
    return id == 0x0809 || id == 0x002f || id == 0x00e1 || id == 0x0138 || (id >= 0x0194 && id <= 0x0196);
}

static size_t clear_len(unsigned id, size_t len)
{
    return never_encrypted(id) ? len : id != 0x0085 ? 0 : len < 4 ? len : 4;
}

struct lock {
    int cryptoapi;
    size_t key_len, hash_len;
    uint8_t digest[20];
};

static void block_key(const struct lock *k, uint32_t block, uint8_t key[20])
{
    uint8_t number[4] = {(uint8_t)block, (uint8_t)(block >> 8), (uint8_t)(block >> 16), (uint8_t)(block >> 24)};
    if (k->cryptoapi) {
        SHA_CTX c;
        SHA1_Init(&c); SHA1_Update(&c, k->digest, 20); SHA1_Update(&c, number, 4); SHA1_Final(key, &c);
        if (k->key_len == 5)
            memset(key + 5, 0, 11);
    } else {
        MD5_CTX c;
        MD5_Init(&c); MD5_Update(&c, k->digest, 5); MD5_Update(&c, number, 4); MD5_Final(key, &c);
    }
}

static void keystream(const struct lock *k, uint32_t block, RC4_KEY *state)
{
    uint8_t key[20];
    block_key(k, block, key);
    RC4_set_key(state, k->key_len == 5 ? 16 : (int)k->key_len, key);
}

static int check(const struct lock *k, const uint8_t *verifier, const uint8_t *hash)
{
    RC4_KEY state;
    uint8_t v[16], h[20], d[20];
    keystream(k, 0, &state);
    RC4(&state, 16, verifier, v);
    RC4(&state, k->hash_len, hash, h);
    if (k->cryptoapi) SHA1(v, 16, d); else MD5(v, 16, d);
    return memcmp(h, d, k->hash_len) == 0;
}

static int rc4_lock(const uint8_t *s, const uint8_t *password, size_t len, struct lock *k)
{
    uint8_t wide[2048];
    for (size_t i = 0; i < len; i++) {
        wide[2 * i] = password[i];
        wide[2 * i + 1] = 0;
    }
    k->cryptoapi = le16(s + 2) == 2;
    if (k->cryptoapi) {
        const uint8_t *v = s + 12 + le32(s + 8);
        SHA_CTX c;
        k->key_len = le32(s + 28) / 8;
        k->hash_len = 20;
        SHA1_Init(&c); SHA1_Update(&c, v + 4, 16); SHA1_Update(&c, wide, 2 * len); SHA1_Final(k->digest, &c);
        return check(k, v + 20, v + 40);
    }
    uint8_t h[20];
    MD5_CTX c;
    k->key_len = 16;
    k->hash_len = 16;
    MD5(wide, 2 * len, h);
    MD5_Init(&c);
    for (int i = 0; i < 16; i++) {
        MD5_Update(&c, h, 5);
        MD5_Update(&c, s + 4, 16);
    }
    MD5_Final(k->digest, &c);
    return check(k, s + 20, s + 36);
}

static const uint16_t initial_code[15] = {0xe1f0, 0x1d0f, 0xcc9c, 0x84c0, 0x110c, 0x0e10, 0xf1ce, 0x313e, 0x1872, 0xe139, 0xd40f, 0x84f9, 0x280c, 0xa96a, 0x4ec3};
static const uint8_t pad[15] = {0xbb, 0xff, 0xff, 0xba, 0xff, 0xff, 0xb9, 0x80, 0x00, 0xbe, 0x0f, 0x00, 0xbf, 0x0f, 0x00};
static const uint16_t matrix[105] = {
    0xaefc, 0x4dd9, 0x9bb2, 0x2745, 0x4e8a, 0x9d14, 0x2a09, 0x7b61, 0xf6c2, 0xfda5, 0xeb6b, 0xc6f7, 0x9dcf, 0x2bbf,
    0x4563, 0x8ac6, 0x05ad, 0x0b5a, 0x16b4, 0x2d68, 0x5ad0, 0x0375, 0x06ea, 0x0dd4, 0x1ba8, 0x3750, 0x6ea0, 0xdd40,
    0xd849, 0xa0b3, 0x5147, 0xa28e, 0x553d, 0xaa7a, 0x44d5, 0x6f45, 0xde8a, 0xad35, 0x4a4b, 0x9496, 0x390d, 0x721a,
    0xeb23, 0xc667, 0x9cef, 0x29ff, 0x53fe, 0xa7fc, 0x5fd9, 0x47d3, 0x8fa6, 0x0f6d, 0x1eda, 0x3db4, 0x7b68, 0xf6d0,
    0xb861, 0x60e3, 0xc1c6, 0x93ad, 0x377b, 0x6ef6, 0xddec, 0x45a0, 0x8b40, 0x06a1, 0x0d42, 0x1a84, 0x3508, 0x6a10,
    0xaa51, 0x4483, 0x8906, 0x022d, 0x045a, 0x08b4, 0x1168, 0x76b4, 0xed68, 0xcaf1, 0x85c3, 0x1ba7, 0x374e, 0x6e9c,
    0x3730, 0x6e60, 0xdcc0, 0xa9a1, 0x4363, 0x86c6, 0x1dad, 0x3331, 0x6662, 0xccc4, 0x89a9, 0x0373, 0x06e6, 0x0dcc,
    0x1021, 0x2042, 0x4084, 0x8108, 0x1231, 0x2462, 0x48c4};

/* MS-OFFCRYPTO 2.3.7.1 and 2.3.7.2: what a password of 1 to 15 characters makes */
void NAME(PREFIX, xor_values)(const uint8_t *password, size_t len, unsigned *key, unsigned *verifier, uint8_t array[16])
{
    unsigned k = initial_code[len - 1], v = 0, element = 105;
    for (size_t i = len; i-- > 0;)
        for (int bit = 6; bit >= 0; bit--) {
            element--;
            if (password[i] >> bit & 1)
                k ^= matrix[element];
        }
    for (size_t i = len; i-- > 0;)
        v = ((v >> 14 & 1) | (v << 1 & 0x7fff)) ^ password[i];
    v = ((v >> 14 & 1) | (v << 1 & 0x7fff)) ^ (unsigned)len;
    for (size_t i = 0; i < 16; i++) {
        uint8_t b = (i < len ? password[i] : pad[i - len]) ^ (uint8_t)(i % 2 ? k >> 8 : k);
        array[i] = (uint8_t)(b >> 1 | b << 7);
    }
    *key = k;
    *verifier = v ^ 0xce4b;
}

static void unxor(const uint8_t array[16], size_t index, const uint8_t *src, uint8_t *dst, size_t len)
{
    for (size_t k = 0; k < len; k++) {
        uint8_t x = src[k] ^ array[(index + k) % 16];
        dst[k] = (uint8_t)(x >> 5 | x << 3);
    }
}

/* opens a stream into out; returns the number of records, 0 where it does not open */
size_t NAME(PREFIX, open)(const uint8_t *stream, size_t len, const uint8_t *password, size_t password_len, uint8_t *out)
{
    size_t records = 0, filepass = 0, filepass_len = 0;
    for (size_t at = 0; at < len; records++) {
        if (len - at < 4)
            return 0;
        unsigned id = le16(stream + at);
        size_t n = le16(stream + at + 2);
        if (len - at - 4 < n)
            return 0;
        if (id == 0x002f && !filepass) {
            filepass = at;
            filepass_len = n;
        }
        at += 4 + n;
    }
    if (!filepass)
        return 0;
    const uint8_t *body = stream + filepass + 4;
    if (le16(body)) {
        struct lock k;
        RC4_KEY state;
        if (!rc4_lock(body + 2, password, password_len, &k))
            return 0;
        for (size_t at = 0; at < len; at += 1024) {
            keystream(&k, (uint32_t)(at / 1024), &state);
            RC4(&state, len - at < 1024 ? len - at : 1024, stream + at, out + at);
        }
        for (size_t at = 0; at < len;) {
            size_t n = le16(stream + at + 2);
            memcpy(out + at, stream + at, 4 + clear_len(le16(stream + at), n));
            at += 4 + n;
        }
    } else {
        uint8_t array[16];
        unsigned key, verifier;
        NAME(PREFIX, xor_values)(password, password_len, &key, &verifier, array);
        if (key != le16(body + 2) || verifier != le16(body + 4))
            return 0;
        for (size_t at = 0; at < len;) {
            size_t n = le16(stream + at + 2), clear = clear_len(le16(stream + at), n), end = at + 4 + n;
            memcpy(out + at, stream + at, 4 + clear);
            unxor(array, end + clear, stream + at + 4 + clear, out + at + 4 + clear, n - clear);
            at = end;
        }
    }
    memset(out + filepass, 0, 2);
    memset(out + filepass + 4, 0, filepass_len);
    return records;
}
