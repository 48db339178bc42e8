// The hashing that one request needs, by OpenSSL: SHA-256 of a canonical request, the four keyed hashes of the signing
// key, that of the string to sign, and SHA-256 of the body; then one copy of the bytes that are stored or sent.
// Arguments: the method, which is `hmac` for the calls that programs usually make, `HMAC` and `SHA256`, or `sha` for the
// minimum, OpenSSL's SHA-256 functions that look up no algorithm; the number of bytes of the canonical request, of the
// hashed body, and of the copy; and the number of repetitions. Prints the nanoseconds of all repetitions.
#define OPENSSL_SUPPRESS_DEPRECATED
#include <openssl/evp.h>
#include <openssl/hmac.h>
#include <openssl/sha.h>
#include <stdint.h>
#include <stdio.h>
#include <stdlib.h>
#include <string.h>
#include <time.h>

static const char *const SCOPE[] = {"20130524", "us-east-1", "s3", "aws4_request"};

static int is_plain;

static void digest(const void *text, size_t length, unsigned char *code) {
    SHA256_CTX state;
    if (!is_plain) {
        SHA256(text, length, code);
        return;
    }
    SHA256_Init(&state);
    SHA256_Update(&state, text, length);
    SHA256_Final(code, &state);
}

// RFC 2104, for keys of at most 64 bytes and texts of at most 118.
static void keyed_plain(unsigned char *key, size_t size, const void *text, size_t length) {
    unsigned char inner[64 + 118], outer[64 + 32];
    for (size_t i = 0; i < 64; i++) {
        unsigned char byte = i < size ? key[i] : 0;
        inner[i] = byte ^ 0x36;
        outer[i] = byte ^ 0x5C;
    }
    memcpy(inner + 64, text, length);
    digest(inner, 64 + length, outer + 64);
    digest(outer, sizeof outer, key);
}

static void keyed(unsigned char *key, size_t size, const void *text, size_t length) {
    unsigned char code[32];
    if (is_plain) {
        keyed_plain(key, size, text, length);
        return;
    }
    HMAC(EVP_sha256(), key, (int)size, text, length, code, NULL);
    memcpy(key, code, sizeof code);
}

int main(int count, char **words) {
    if (count != 6) return 2;
    is_plain = strcmp(words[1], "sha") == 0;
    size_t canonical = strtoul(words[2], NULL, 10), body = strtoul(words[3], NULL, 10);
    size_t copied = strtoul(words[4], NULL, 10), often = strtoul(words[5], NULL, 10);
    size_t most = (canonical > body ? canonical : body) + copied + 1;
    unsigned char *text = malloc(most), *copy = malloc(most), key[64], lines[118];
    if (!text || !copy) return 2;
    memset(text, 'a', most);
    memset(copy, 'b', most);
    memset(lines, 'c', sizeof lines);
    unsigned sum = 0;
    struct timespec start, end;
    clock_gettime(CLOCK_MONOTONIC, &start);
    for (size_t i = 0; i < often; i++) {
        text[0] = (unsigned char)i;
        digest(text, canonical, lines + sizeof lines - 32);
        memcpy(key, "AWS4wJalrXUtnFEMI/K7MDENG/bPxRfiCYEXAMPLEKEY", 44);
        for (size_t j = 0; j < 4; j++) keyed(key, j ? 32 : 44, SCOPE[j], strlen(SCOPE[j]));
        keyed(key, 32, lines, sizeof lines);
        sum += key[0];
        if (body) digest(text, body, key);
        memcpy(copy, text, copied);
        sum += key[0] + copy[copied / 2];
    }
    clock_gettime(CLOCK_MONOTONIC, &end);
    fprintf(stderr, "%u\n", sum);
    printf("%lld\n", (long long)(end.tv_sec - start.tv_sec) * 1000000000LL + (end.tv_nsec - start.tv_nsec));
    return 0;
}
