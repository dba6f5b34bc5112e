/* What the drivers of Open share: a locked stream, made from a plain one with OpenSSL's RC4, SHA-1 and MD5, and its password. Under XOR the password's values
   are those of plain_open.c. */
#include "common.h"
#include <openssl/md5.h>
#include <openssl/rc4.h>
#include <openssl/sha.h>
#include <string.h>

void gcc_xor_values(const uint8_t *password, size_t len, unsigned *key, unsigned *verifier, uint8_t array[16]);

enum { PASSWORD_MAX = 1024 };
static uint8_t password[PASSWORD_MAX + 1] = "lift angle 50";
static size_t password_len = 13;
static uint8_t *plain, *stream;

/* the key of a block, as document 01 writes it */
static void key_of(int lock, uint32_t block, const uint8_t salt[16], uint8_t key[20])
{
    uint8_t wide[2 * PASSWORD_MAX + 16], text[20 * 16 + 64], number[4], *start = wide + 16;
    memset(wide, 0, sizeof wide);
    for (size_t i = 0; i < password_len; i++)
        start[2 * i] = password[i];
    put(number, 4, block);
    if (lock == 2) {
        memcpy(wide, salt, 16);
        SHA1(wide, 16 + 2 * password_len, text);
        memcpy(text + 20, number, 4);
        SHA1(text, 24, key);
    } else {
        uint8_t h[16];
        MD5(start, 2 * password_len, h);
        for (int i = 0; i < 16; i++) {
            memcpy(text + 21 * i, h, 5);
            memcpy(text + 21 * i + 5, salt, 16);
        }
        MD5(text, 21 * 16, h);
        memcpy(h + 5, number, 4);
        MD5(h, 9, key);
    }
}

/* makes a locked stream: BOF, FILEPASS, then records of a body length with a BoundSheet8 every hundredth. The bits of a block's key are 128 under 1.1, and from 48
   to 128 under CryptoAPI */
static size_t make(int lock, unsigned bits, size_t body, size_t size)
{
    static const uint8_t salt[16] = "salt of 16 bytes";
    size_t at = 0, filepass_len = lock == 0 ? 6 : lock == 1 ? 54 : 106;
    uint64_t x = 88172645463325252u;
    uint8_t key[20], array[16];
    unsigned k, v;
    memset(plain, 0, size);
    put(plain, 4, 0x00100809);
    at = 20;
    put(plain + at, 4, 0x002f | filepass_len << 16);
    uint8_t *f = plain + at + 4;
    RC4_KEY state;
    if (lock == 0) {
        gcc_xor_values(password, password_len, &k, &v, array);
        put(f + 2, 2, k);
        put(f + 4, 2, v);
    } else {
        uint8_t check[36], *to = f + (lock == 1 ? 6 : 46);
        size_t hash_len = lock == 1 ? 16 : 20;
        memset(check, 0x5a, 16);
        if (lock == 1) MD5(check, 16, check + 16); else SHA1(check, 16, check + 16);
        key_of(lock, 0, salt, key);
        RC4_set_key(&state, (int)bits / 8, key);
        RC4(&state, 16 + hash_len, check, check);
        put(f, 2, 1);
        put(f + 2, 4, lock == 1 ? 0x00010001 : 0x00020002);
        if (lock == 2) {
            put(f + 6, 4, 4); put(f + 10, 4, 32); put(f + 14, 4, 4); put(f + 22, 4, 0x6801); put(f + 26, 4, 0x8004); put(f + 30, 4, bits);
            put(to, 4, 16); memcpy(to + 4, salt, 16); memcpy(to + 20, check, 16); put(to + 36, 4, 20); memcpy(to + 40, check + 16, 20);
        } else {
            memcpy(to, salt, 16);
            memcpy(to + 16, check, 32);
        }
    }
    at += 4 + filepass_len;
    for (size_t n = 1; at + 4 + body <= size; n++) {
        put(plain + at, 4, (n % 100 ? 0x0203 : 0x0085) | body << 16);
        for (size_t i = 0; i < body; i++) {
            x ^= x << 13; x ^= x >> 7; x ^= x << 17;
            plain[at + 4 + i] = (uint8_t)x;
        }
        at += 4 + body;
    }
    size_t len = at;
    if (lock)
        for (at = 0; at < len; at += 1024) {
            key_of(lock, (uint32_t)(at / 1024), salt, key);
            RC4_set_key(&state, (int)bits / 8, key);
            RC4(&state, len - at < 1024 ? len - at : 1024, plain + at, stream + at);
        }
    for (at = 0; at < len;) {
        size_t id = plain[at] | plain[at + 1] << 8, n = plain[at + 2] | plain[at + 3] << 8;
        size_t clear = id == 0x0203 ? 0 : id == 0x0085 ? (n < 4 ? n : 4) : n;
        memcpy(stream + at, plain + at, 4 + clear);
        if (lock == 0)
            for (size_t i = clear; i < n; i++) {
                uint8_t b = plain[at + 4 + i];
                stream[at + 4 + i] = (uint8_t)(b << 5 | b >> 3) ^ array[(at + 4 + n + i) % 16];
            }
        at += 4 + n;
    }
    memset(plain + 20, 0, 2);
    memset(plain + 24, 0, filepass_len);
    return len;
}
