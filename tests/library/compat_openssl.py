"""What programs get that ask OpenSSL for scrypt and find the provider of compat/: for tests/library/compat.py."""
import hashlib
import os
import pathlib
import re

from checking import is_there, left_out, ran
from tree import TOP

# RFC 7914, section 12: password, salt, N, r, p and key; the fourth, of 1 GiB, is left out.
VECTORS = (
    ("", "", 16, 1, 1, "77d6576238657b203b19ca42c18a0497f16b4844e3074ae8dfdffa3fede21442fcd0069ded0948f8326a753a0fc81f17e8d3e0fb2e0d3628cf35e20c38d18906"),
    ("password", "NaCl", 1024, 8, 16, "fdbabe1c9d3472007856e7190d01e9fe7c6ad7cbc8237830e77376634b3731622eaf30d92e22a3886ff109279d9830dac727afb94a83ee6d8360cbdfa2cc0640"),
    ("pleaseletmein", "SodiumChloride", 16384, 8, 1, "7023bdcb3afd7348461c06cd81fd38ebfda8fbba904f8e3ea9b543f6545da1f2d5432955613f0fcf62d49705242a9af9e61e85dc0d651e40dfcf017b45575887"),
)
# Random calls of hashlib, and what it answers: some at the limits of memory and of N, r and p, and one byte or one step beyond.
HASHLIB = """import hashlib, random
of = random.Random(1)
for _ in range(400):
    n, r, p = 1 << of.randint(1, 9), of.randint(1, 9), of.randint(1, 5)
    if of.random() < 0.2:
        n, r, p = of.choice(((1 << 15, 1, 1), (1 << 16, 1, 1), (1 << 17, 2, 1), (2, 1, (1 << 30) - 1), (2, 1 << 10, 1 << 20), (2, 1 << 15, 1 << 15), (1, 1, 1)))
    needed = 128 * r * (n + 2 + p)
    limit = needed + of.choice((0, 0, 0, -1, 1, 1000)) if needed < 1 << 27 else 1 << 26
    try:
        print(hashlib.scrypt(of.randbytes(of.choice((0, 9, 100))), salt=of.randbytes(of.choice((0, 9, 100))), n=n, r=r, p=p, maxmem=limit,
                             dklen=of.choice((1, 32, 64, 100))).hex())
    except ValueError:
        print("refused", n, r, p, limit - needed)
print("ours" if "/pikhsen.so" in open("/proc/self/maps").read() else "OpenSSL's")
"""
CRYPTOGRAPHY = """from cryptography.hazmat.primitives.kdf.scrypt import Scrypt
print(Scrypt(salt=b"NaCl", length=64, n=1024, r=8, p=16).derive(b"password").hex())
"""
REFUSING = ["-DREFUSE", "-I", TOP / "tests/library"]
# Refuses each request for memory in turn while parameters are set, and while a key is derived: each call is then refused, and no key is written.
REFUSED = """#include <openssl/core_names.h>
#include <openssl/evp.h>
#include <openssl/kdf.h>
#include <openssl/params.h>
#include <openssl/provider.h>
#include <string.h>
#include "refusing.h"
int main(void)
{
    uint64_t n = 1 << 14;
    OSSL_PARAM params[] = {OSSL_PARAM_octet_string(OSSL_KDF_PARAM_PASSWORD, "pw", 2), OSSL_PARAM_octet_string(OSSL_KDF_PARAM_SALT, "salt", 4),
        OSSL_PARAM_uint64(OSSL_KDF_PARAM_SCRYPT_N, &n), OSSL_PARAM_END};
    EVP_KDF *kdf = EVP_KDF_fetch(NULL, "SCRYPT", NULL);
    EVP_KDF_CTX *of = kdf ? EVP_KDF_CTX_new(kdf) : NULL;
    unsigned char key[32] = {0}, zeros[32] = {0};
    if (!of || strcmp(OSSL_PROVIDER_get0_name(EVP_KDF_get0_provider(kdf)), "pikhsen") != 0 || EVP_KDF_CTX_get_kdf_size(of) != SIZE_MAX)
        return 1;
    if (EVP_KDF_derive(of, key, 32, NULL) || EVP_KDF_CTX_set_params(of, params + 1) != 1 || EVP_KDF_derive(of, key, 32, NULL))
        return 2; /* without a password */
    EVP_KDF_CTX_reset(of);
    for (int is_key = 0; is_key < 2; is_key += 1)
        for (long requests = 0, is_done = 0; !is_done; requests += 1) {
            granted = requests;
            is_done = is_key ? EVP_KDF_derive(of, key, 32, NULL) : EVP_KDF_CTX_set_params(of, params);
            granted = -1;
            if (is_done ? requests == 0 : requests > 50 || memcmp(key, zeros, 32) != 0)
                return 3;
        }
    EVP_KDF_CTX_free(of);
    EVP_KDF_free(kdf);
    for (int at = 0; at < 32; at += 1)
        printf("%02x", key[at]);
    return 0;
}
"""


def key_of(configuration, password, salt, n, r, p):
    """Status and key of `openssl kdf`."""
    options = [f"pass:{password}", f"salt:{salt}", f"n:{n}", f"r:{r}", f"p:{p}"]
    status, text = ran("openssl", "kdf", "-keylen", "64", *(word for it in options for word in ("-kdfopt", it)), "SCRYPT", env=configuration)
    return status, text.strip().replace(":", "").lower() if status == 0 else ""


def keys_in_files(checks, folder, configurations):
    """openssl keeps a private key under a passphrase over each, and opens it over the other."""
    plain, kept = (f"{folder}/{it}.pem" for it in ("plain", "kept"))
    ran("openssl", "genpkey", "-algorithm", "ed25519", "-out", plain)
    for maker, other in (("ours", "OpenSSL's"), ("OpenSSL's", "ours")):
        made = ran("openssl", "pkcs8", "-topk8", "-in", plain, "-scrypt", "-passout", "pass:pw", "-out", kept, env=configurations[maker])
        checks.that(f"openssl pkcs8 -scrypt, {maker}", made, (0, ""))
        for password, expected in (("pw", (0, pathlib.Path(plain).read_text(encoding="ascii"))), ("no", (1, ""))):
            status, text = ran("sh", "-c", f"openssl pkcs8 -in {kept} -passin pass:{password} 2>/dev/null", env=configurations[other])
            checks.that(f"openssl pkcs8 over {other}, {password}", (status, text), expected)


# What is told of other parameters beside password, salt, n and r, by either, in a thread whose stack has 64 KiB: whether all may
# be set, and whether there is a key.
ANSWERS = """#include <openssl/evp.h>
#include <openssl/kdf.h>
#include <openssl/params.h>
#include <pthread.h>
#include <stdio.h>
static void *in_thread(void *none)
{
    unsigned char key[32];
    uint64_t n = 16, r = 8, p = 1 << 21, less = (1 << 21) - 1, most = 1ull << 33;
    OSSL_PARAM others[][3] = {
        {OSSL_PARAM_END}, {OSSL_PARAM_utf8_string("properties", "fips=yes", 0), OSSL_PARAM_END},
        {OSSL_PARAM_utf8_string("properties", "", 0), OSSL_PARAM_END}, {OSSL_PARAM_octet_string("pass", NULL, 5), OSSL_PARAM_END},
        {OSSL_PARAM_octet_string("salt", NULL, 5), OSSL_PARAM_END}, {OSSL_PARAM_octet_string("pass", NULL, 0), OSSL_PARAM_END},
        {OSSL_PARAM_uint64("p", &p), OSSL_PARAM_uint64("maxmem_bytes", &most), OSSL_PARAM_END},
        {OSSL_PARAM_uint64("p", &less), OSSL_PARAM_uint64("maxmem_bytes", &most), OSSL_PARAM_END}};
    OSSL_PARAM params[] = {OSSL_PARAM_octet_string("pass", "pw", 2), OSSL_PARAM_octet_string("salt", "salt", 4),
        OSSL_PARAM_uint64("n", &n), OSSL_PARAM_uint64("r", &r), OSSL_PARAM_END};
    EVP_KDF *kdf = EVP_KDF_fetch(NULL, "SCRYPT", NULL);
    for (int it = 0; it < 8; it += 1) {
        EVP_KDF_CTX *of = EVP_KDF_CTX_new(kdf);
        printf("%d", EVP_KDF_CTX_set_params(of, params));
        printf("%d", EVP_KDF_CTX_set_params(of, others[it]));
        printf("%d ", EVP_KDF_derive(of, it < 6 ? key : NULL, 32, NULL)); /* of the last two, whether one would be computed */
        EVP_KDF_CTX_free(of);
    }
    return none;
}
int main(void)
{
    pthread_attr_t small;
    pthread_t thread;
    pthread_attr_init(&small);
    pthread_attr_setstacksize(&small, 64 << 10);
    return pthread_create(&thread, &small, in_thread, NULL) || pthread_join(thread, NULL);
}
"""
# Of each: by both, but for the properties and for null with a length, which man/pikhsen-compat.7 tells of.
TOLD = {"ours": "111 101 101 101 101 111 110 111 ", "OpenSSL's": "111 100 111 110 110 111 110 111 "}


def for_all_programs(checks, folder, compat, program):
    """A copy of Debian's own openssl.cnf, edited as man/pikhsen-compat.7 says: scrypt is that of the provider."""
    debians, edited = pathlib.Path("/etc/ssl/openssl.cnf"), pathlib.Path(folder, "edited.cnf")
    page = (TOP / "man/pikhsen-compat.7").read_text(encoding="utf-8").replace("\\-", "-")
    two, one = re.findall(r"\n\.nf\n((?:    .*\n)+)\.fi", page.partition("[openssl_init]")[2])[:2]
    text, head = debians.read_text(encoding="utf-8") if debians.exists() else "", "\n[openssl_init]\n"
    if head not in text:
        left_out(f"{debians} has no section openssl_init", "it is not edited", 4)
        return
    one = re.sub(r"/\S+", lambda it: str(compat / "openssl.cnf"), one)
    edited.write_text(text.replace(head, f"{head}{two}") + one, encoding="utf-8")
    environment = {**os.environ, "OPENSSL_CONF": str(edited)}
    listed = re.findall("name: (.*)", ran("openssl", "list", "-providers", env=environment)[1])
    checks.that("providers by the system's file", listed, ["OpenSSL Default Provider", "Pikhsen's scrypt"])
    checks.that("whose scrypt that is", ran(program, env=environment)[0], 0)
    if is_there("strace", "no module is seen to be opened", 2):
        *words, key = VECTORS[1]
        options = [word for it in zip(("pass", "salt", "n", "r", "p"), words) for word in ("-kdfopt", "{}:{}".format(*it))]
        status, said = ran("strace", "-e", "openat", "openssl", "kdf", "-keylen", "64", *options, "SCRYPT", env=environment)
        checks.that("openssl kdf by the system's file", (status, key in said.replace(":", "").lower()), (0, True))
        checks.that("the module is opened", f'"{compat}/pikhsen.so"' in said, True)


def openssl_of(checks, folder, compat):
    """The provider beside OpenSSL's own scrypt."""
    if not (compat / "pikhsen.so").exists():
        left_out("libssl-dev is not installed", "the provider is not built")
        return
    if not is_there("openssl", "the provider is not loaded"):
        return
    configurations = {"ours": {**os.environ, "OPENSSL_CONF": str(compat / "openssl.cnf")}, "OpenSSL's": dict(os.environ)}
    listed = re.findall(r"name: (.*)\n(?:    version.*\n)?    status: (\w+)", ran("openssl", "list", "-providers", env=configurations["ours"])[1])
    checks.that("providers", listed, [("OpenSSL Default Provider", "active"), ("Pikhsen's scrypt", "active")])
    for name, configuration in configurations.items():
        for *words, key in VECTORS:
            checks.that(f"openssl kdf {words}, {name}", key_of(configuration, *words), (0, key))
        for n, r, p in ((1000, 8, 1), (1, 8, 1), (0, 8, 1), (16, 0, 1), (16, 1, 0), (1 << 16, 1, 1), (16, 1 << 20, 1 << 10), (1 << 20, 9, 1), (1 << 62, 8, 1)):
            checks.that(f"openssl kdf, {n} {r} {p}, {name}", key_of(configuration, "x", "y", n, r, p), (1, ""))
    found = {name: ran("/usr/bin/python3", "-c", HASHLIB, env=it)[1].splitlines() for name, it in configurations.items()}
    checks.that("calls of hashlib.scrypt", found["ours"][:-1], found["OpenSSL's"][:-1])
    checks.that("whose they are", [*(it[-1] for it in found.values())], [*found])
    refused = sum(it.startswith("refused") for it in found["ours"])
    checks.that("calls of hashlib.scrypt that are refused", 40 < refused < 200, True)
    if ran("/usr/bin/python3", "-c", "import cryptography")[0] == 0:
        checks.that("cryptography", ran("/usr/bin/python3", "-c", CRYPTOGRAPHY, env=configurations["ours"]), (0, f"{VECTORS[1][-1]}\n"))
    else:
        left_out("python3-cryptography is not installed", "it derives no key", 1)
    keys_in_files(checks, folder, configurations)
    program = f"{folder}/refused_key"
    made = ran("gcc", "-std=gnu99", "-Wall", *REFUSING, "-x", "c", "-", "-lcrypto", "-o", program, input=REFUSED)
    checks.that("requests of the provider are refused, compiled", made, (0, ""))
    # r and p are those that are not given (EVP_KDF-SCRYPT(7))
    key = hashlib.scrypt(b"pw", salt=b"salt", n=1 << 14, r=8, p=1, dklen=32).hex()
    checks.that("each request of the provider refused in turn", ran(program, env=configurations["ours"]), (0, key))
    for_all_programs(checks, folder, compat, program)
    made = ran("gcc", "-std=gnu99", "-Wall", "-x", "c", "-", "-lcrypto", "-o", f"{folder}/answers", input=ANSWERS)
    checks.that("what is told of a parameter, compiled", made, (0, ""))
    for name, configuration in configurations.items():
        checks.that(f"what is told of a parameter, {name}", ran(f"{folder}/answers", env=configuration), (0, TOLD[name]))
