/*
 * A provider of OpenSSL 3 with one algorithm, its key derivation SCRYPT, over libpikhsen: for programs that ask OpenSSL
 * for scrypt, by EVP_PBE_scrypt or by EVP_KDF. Proofs end at libpikhsen; these lines are tested, by
 * tests/library/compat.py. pikhsen-compat(7) is their manual page.
 *
 * Parameters, defaults and limits are those of OpenSSL's own (EVP_KDF-SCRYPT(7)). Other than with it: a table of more
 * than 2^40 bytes is refused, EVP_KDF_CTX_dup gives none, and a refusal puts no reason into OpenSSL's queue of errors.
 * Properties are refused, since SHA-256 is libpikhsen's own and has none; so is null with a length for password or salt,
 * which OpenSSL's own takes for none at all.
 */
#include <openssl/core_dispatch.h>
#include <openssl/core_names.h>
#include <openssl/crypto.h>
#include <openssl/params.h>
#include <limits.h>
#include <pikhsen.h>

/* The greatest r * p: 128 * r * p is an int in OpenSSL's own, too. (RFC 7914, section 2, has 2^30 - 1.) */
#define MOST_PRODUCT (INT_MAX / 128)
#define NO_OPS UINT64_MAX

/* What a key is made of: each of both is null until it is given, and most counts the bytes of memory. */
struct scrypt {
	void *password, *salt;
	size_t password_len, salt_len;
	uint64_t n, r, p, most;
};

static const struct scrypt defaults = {.n = 1 << 20, .r = 8, .p = 1, .most = 1025 << 20};

static void *new_context(void *provider)
{
	struct scrypt *of = OPENSSL_malloc(sizeof *of);

	(void)provider;
	if (of)
		*of = defaults;
	return of;
}

static void reset(void *context)
{
	struct scrypt *of = context;

	OPENSSL_clear_free(of->password, of->password_len);
	OPENSSL_clear_free(of->salt, of->salt_len);
	*of = defaults;
}

static void free_context(void *context)
{
	if (context) {
		reset(context);
		OPENSSL_free(context);
	}
}

/* Takes the bytes of this name, where they are given. No bytes are some, too: they get a place. */
static int take_bytes(const OSSL_PARAM *params, const char *name, void **to, size_t *len)
{
	const OSSL_PARAM *it = OSSL_PARAM_locate_const(params, name);
	void *bytes = NULL;
	size_t bytes_len = 0;

	if (!it)
		return 1;
	if (it->data_size == 0 ? !(bytes = OPENSSL_malloc(1)) : !OSSL_PARAM_get_octet_string(it, &bytes, 0, &bytes_len))
		return 0;
	OPENSSL_clear_free(*to, *len);
	*to = bytes;
	*len = bytes_len;
	return 1;
}

/* Takes the number of this name, where it is given; it is at least the least. */
static int take_number(const OSSL_PARAM *params, const char *name, uint64_t least, uint64_t *to)
{
	const OSSL_PARAM *it = OSSL_PARAM_locate_const(params, name);
	uint64_t number;

	if (!it)
		return 1;
	if (!OSSL_PARAM_get_uint64(it, &number) || number < least)
		return 0;
	*to = number;
	return 1;
}

static int set_params(void *context, const OSSL_PARAM params[])
{
	struct scrypt *of = context;
	uint64_t n = of->n;

	if (!params)
		return 1;
	if (OSSL_PARAM_locate_const(params, OSSL_KDF_PARAM_PROPERTIES)
	    || !take_bytes(params, OSSL_KDF_PARAM_PASSWORD, &of->password, &of->password_len)
	    || !take_bytes(params, OSSL_KDF_PARAM_SALT, &of->salt, &of->salt_len)
	    || !take_number(params, OSSL_KDF_PARAM_SCRYPT_N, 2, &n) || (n & (n - 1)) != 0)
		return 0;
	of->n = n;
	return take_number(params, OSSL_KDF_PARAM_SCRYPT_R, 1, &of->r) && take_number(params, OSSL_KDF_PARAM_SCRYPT_P, 1, &of->p)
	    && take_number(params, OSSL_KDF_PARAM_SCRYPT_MAXMEM, 1, &of->most);
}

static const OSSL_PARAM *settable_params(void *context, void *provider)
{
	static const OSSL_PARAM all[] = {OSSL_PARAM_octet_string(OSSL_KDF_PARAM_PASSWORD, NULL, 0),
	    OSSL_PARAM_octet_string(OSSL_KDF_PARAM_SALT, NULL, 0), OSSL_PARAM_uint64(OSSL_KDF_PARAM_SCRYPT_N, NULL),
	    OSSL_PARAM_uint32(OSSL_KDF_PARAM_SCRYPT_R, NULL), OSSL_PARAM_uint32(OSSL_KDF_PARAM_SCRYPT_P, NULL),
	    OSSL_PARAM_uint64(OSSL_KDF_PARAM_SCRYPT_MAXMEM, NULL), OSSL_PARAM_END};

	(void)context, (void)provider;
	return all;
}

/* A key has any length. */
static int get_params(void *context, OSSL_PARAM params[])
{
	OSSL_PARAM *size = OSSL_PARAM_locate(params, OSSL_KDF_PARAM_SIZE);

	(void)context;
	return !size || OSSL_PARAM_set_size_t(size, SIZE_MAX);
}

static const OSSL_PARAM *gettable_params(void *context, void *provider)
{
	static const OSSL_PARAM all[] = {OSSL_PARAM_size_t(OSSL_KDF_PARAM_SIZE, NULL), OSSL_PARAM_END};

	(void)context, (void)provider;
	return all;
}

/* Whether N, r and p are those of RFC 7914, section 2, and what they take is within the limit: V with two blocks, and B. */
static int is_admitted(const struct scrypt *of)
{
	if (of->p > MOST_PRODUCT / of->r || (of->r < 4 && of->n >= (uint64_t)1 << 16 * of->r))
		return 0;
	return (unsigned __int128)128 * of->r * ((unsigned __int128)of->n + 2 + of->p) <= of->most;
}

/* Without a place for the key the parameters alone are tested. */
static int derive(void *context, unsigned char *key, size_t key_len, const OSSL_PARAM params[])
{
	struct scrypt *of = context;

	if (!set_params(context, params) || !of->password || !of->salt || !is_admitted(of))
		return 0;
	return !key || pikhsen_scrypt(of->password, of->password_len, of->salt, of->salt_len,
	    (unsigned int)__builtin_ctzll(of->n), (unsigned int)of->r, (unsigned int)of->p, 1, of->most, NO_OPS, key, key_len)
	    == PIKHSEN_OK;
}

#define ENTRY(number, function) {number, (void (*)(void))function}

static const OSSL_ALGORITHM *algorithms(void *provider, int operation, int *no_cache)
{
	static const OSSL_DISPATCH functions[] = {ENTRY(OSSL_FUNC_KDF_NEWCTX, new_context),
	    ENTRY(OSSL_FUNC_KDF_FREECTX, free_context), ENTRY(OSSL_FUNC_KDF_RESET, reset), ENTRY(OSSL_FUNC_KDF_DERIVE, derive),
	    ENTRY(OSSL_FUNC_KDF_SET_CTX_PARAMS, set_params), ENTRY(OSSL_FUNC_KDF_SETTABLE_CTX_PARAMS, settable_params),
	    ENTRY(OSSL_FUNC_KDF_GET_CTX_PARAMS, get_params), ENTRY(OSSL_FUNC_KDF_GETTABLE_CTX_PARAMS, gettable_params),
	    {0, NULL}};
	static const OSSL_ALGORITHM all[] = {
	    {"SCRYPT:id-scrypt:1.3.6.1.4.1.11591.4.11", "provider=pikhsen", functions, "scrypt (RFC 7914) by libpikhsen"},
	    {NULL, NULL, NULL, NULL}};

	(void)provider;
	*no_cache = 0;
	return operation == OSSL_OP_KDF ? all : NULL;
}

/* What openssl list -providers shows. */
static int about(void *provider, OSSL_PARAM params[])
{
	OSSL_PARAM *name = OSSL_PARAM_locate(params, OSSL_PROV_PARAM_NAME), *status = OSSL_PARAM_locate(params, OSSL_PROV_PARAM_STATUS);

	(void)provider;
	return (!name || OSSL_PARAM_set_utf8_ptr(name, "Pikhsen's scrypt")) && (!status || OSSL_PARAM_set_int(status, 1));
}

static const OSSL_PARAM *told_about(void *provider)
{
	static const OSSL_PARAM all[] = {OSSL_PARAM_utf8_ptr(OSSL_PROV_PARAM_NAME, NULL, 0),
	    OSSL_PARAM_int(OSSL_PROV_PARAM_STATUS, NULL), OSSL_PARAM_END};

	(void)provider;
	return all;
}

int OSSL_provider_init(const OSSL_CORE_HANDLE *core, const OSSL_DISPATCH *of_core, const OSSL_DISPATCH **functions, void **provider)
{
	static const OSSL_DISPATCH all[] = {ENTRY(OSSL_FUNC_PROVIDER_QUERY_OPERATION, algorithms),
	    ENTRY(OSSL_FUNC_PROVIDER_GET_PARAMS, about), ENTRY(OSSL_FUNC_PROVIDER_GETTABLE_PARAMS, told_about), {0, NULL}};

	(void)of_core;
	*provider = (void *)core;
	*functions = all;
	return 1;
}
