/* By libsodium (-Dsodium) or by OpenSSL (-Dcrypto): a key of 64 bytes by its scrypt, with the words of scrypt, enc --logN
   LOG -r R -p P .., and the password in PW; and by libsodium Argon2id, with the words of argon2, SALT -id -t PASSES -p 1
   -m LOG -r, and the password on standard input. Without words it prints which library that is. bench/table.py links
   that by its name, without its header. */
#include <stdint.h>
#include <stdio.h>
#include <stdlib.h>
#include <string.h>

#define NUMBER(place) strtoull(words[place], NULL, 10)

int sodium_init(void), sodium_runtime_has_avx512f(void), sodium_runtime_has_avx2(void), sodium_runtime_has_ssse3(void);
const char *sodium_version_string(void), *OpenSSL_version(int which);
int crypto_pwhash(unsigned char *out, unsigned long long out_len, const char *password, unsigned long long password_len,
                  const unsigned char *salt, unsigned long long passes, size_t bytes, int algorithm);
int crypto_pwhash_scryptsalsa208sha256_ll(const uint8_t *password, size_t password_len, const uint8_t *salt,
                                          size_t salt_len, uint64_t n, uint32_t r, uint32_t p, uint8_t *key, size_t key_len);
int EVP_PBE_scrypt(const char *password, size_t password_len, const unsigned char *salt, size_t salt_len, uint64_t n,
                   uint64_t r, uint64_t p, uint64_t most_memory, unsigned char *key, size_t key_len);

int main(int count, char **words)
{
    static const unsigned char salt[32];
    unsigned char key[64];
    const char *password = getenv("PW");
#ifdef sodium
    char given[128];
    if (sodium_init() < 0) return 1;
    if (count < 8) {
        const char *with = sodium_runtime_has_avx512f() ? "AVX-512" : sodium_runtime_has_avx2() ? "AVX2"
                           : sodium_runtime_has_ssse3() ? "SSSE3" : "no vector instructions";
        return printf("libsodium %s, Argon2 with %s\n", sodium_version_string(), with) < 0;
    }
    if (strcmp(words[1], "enc") == 0)
        return password == NULL || crypto_pwhash_scryptsalsa208sha256_ll((const uint8_t *)password, strlen(password),
            salt, sizeof salt, (uint64_t)1 << NUMBER(3), NUMBER(5), NUMBER(7), key, sizeof key) != 0;
    if (crypto_pwhash(key, 32, given, fread(given, 1, sizeof given, stdin), (unsigned char *)words[1], NUMBER(4),
                      (size_t)1024 << NUMBER(8), 2) != 0) return 1;
    for (size_t i = 0; i < 32; i++) printf("%02x", key[i]);
    return puts("") < 0;
#else
    if (count < 8) return printf("%s, %s\n", OpenSSL_version(0), OpenSSL_version(9)) < 0;
    return password == NULL || EVP_PBE_scrypt(password, strlen(password), salt, sizeof salt, (uint64_t)1 << NUMBER(3),
        NUMBER(5), NUMBER(7), (uint64_t)1 << 32, key, sizeof key) != 1;
#endif
}
