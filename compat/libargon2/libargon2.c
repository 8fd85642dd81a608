/*
 * libargon2.so.1 over libpikhsen: the 22 functions of argon2.h, for programs that are linked to them already. Proofs
 * end at libpikhsen; these lines are tested, by tests/library/compat.py. pikhsen-compat(7) is their manual page.
 *
 * A hash is made in memory of this library's own, and what was asked for is written last: so a refusal writes nothing,
 * and the output may lie over an input. What the reference implementation refuses before it hashes is refused by the
 * same number. Other than with it:
 *
 *  - One thread does the work of all lanes, whatever `threads` is. The tag is the same.
 *  - allocate_cbk: the memory of a hash is always malloc's, so a context with it is refused, as if it had given none
 *    (ARGON2_MEMORY_ALLOCATION_ERROR).
 *  - A salt above 255 bytes (ARGON2_SALT_TOO_LONG), a tag above 4096 (ARGON2_OUTPUT_TOO_LONG), and a version that is
 *    neither 0x10 nor 0x13 (ARGON2_INCORRECT_PARAMETER) are refused.
 *  - A text that is refused is refused by ARGON2_DECODING_FAIL, not by the number of a value that is out of range. So is
 *    one with a value that is refused here alone, or with a byte above 127, which the reference implementation takes for
 *    a symbol of base64.
 *  - If a text has no room, neither it nor the tag is written, and zeros neither.
 *  - argon2_encodedlen of a type that there is not is 0. Sentences of argon2_error_message have other words.
 */
#include "argon2.h"

#include <pikhsen.h>
#include <string.h>

#define MOST_SALT 255
#define MOST_TAG 4096
#define NO_KIB UINT32_MAX
#define NO_OPS UINT64_MAX

/* What the reference implementation refuses, in its order; then what is refused here alone. */
static int refused(const argon2_context *of, argon2_type type)
{
	if (!of) return ARGON2_INCORRECT_PARAMETER;
	if (!of->out) return ARGON2_OUTPUT_PTR_NULL;
	if (of->outlen < ARGON2_MIN_OUTLEN) return ARGON2_OUTPUT_TOO_SHORT;
	if (!of->pwd && of->pwdlen) return ARGON2_PWD_PTR_MISMATCH;
	if (!of->salt && of->saltlen) return ARGON2_SALT_PTR_MISMATCH;
	if (of->saltlen < ARGON2_MIN_SALT_LENGTH) return ARGON2_SALT_TOO_SHORT;
	if (!of->secret && of->secretlen) return ARGON2_SECRET_PTR_MISMATCH;
	if (!of->ad && of->adlen) return ARGON2_AD_PTR_MISMATCH;
	if (of->m_cost < ARGON2_MIN_MEMORY) return ARGON2_MEMORY_TOO_LITTLE;
	if (of->m_cost < 8 * of->lanes) return ARGON2_MEMORY_TOO_LITTLE; /* of 32 bits: many lanes are too many, below */
	if (of->t_cost < ARGON2_MIN_TIME) return ARGON2_TIME_TOO_SMALL;
	if (of->lanes < ARGON2_MIN_LANES) return ARGON2_LANES_TOO_FEW;
	if (of->lanes > ARGON2_MAX_LANES) return ARGON2_LANES_TOO_MANY;
	if (of->threads < ARGON2_MIN_THREADS) return ARGON2_THREADS_TOO_FEW;
	if (of->threads > ARGON2_MAX_THREADS) return ARGON2_THREADS_TOO_MANY;
	if (of->allocate_cbk && !of->free_cbk) return ARGON2_FREE_MEMORY_CBK_NULL;
	if (!of->allocate_cbk && of->free_cbk) return ARGON2_ALLOCATE_MEMORY_CBK_NULL;
	if (!argon2_type2string(type, 0)) return ARGON2_INCORRECT_TYPE;
	if (of->saltlen > MOST_SALT) return ARGON2_SALT_TOO_LONG;
	if (of->outlen > MOST_TAG) return ARGON2_OUTPUT_TOO_LONG;
	if (of->allocate_cbk) return ARGON2_MEMORY_ALLOCATION_ERROR;
	return ARGON2_OK;
}

/* What libpikhsen told, of arguments that were not refused above. */
static int answer_of(unsigned int status)
{
	switch (status) {
	case PIKHSEN_OK: return ARGON2_OK;
	case PIKHSEN_MISMATCH: return ARGON2_VERIFY_MISMATCH;
	case PIKHSEN_OUT_OF_MEMORY: return ARGON2_MEMORY_ALLOCATION_ERROR;
	case PIKHSEN_BUFFER: return ARGON2_ENCODING_FAIL;
	case PIKHSEN_ARGON2_VERSION: return ARGON2_INCORRECT_PARAMETER;
	default: return ARGON2_DECODING_FAIL; /* of a text */
	}
}

static void clear(void *at, uint32_t *len)
{
	if (at)
		explicit_bzero(at, *len);
	*len = 0;
}

int argon2_ctx(argon2_context *of, argon2_type type)
{
	uint8_t tag[MOST_TAG];
	int answer = refused(of, type);

	if (answer == ARGON2_OK)
		answer = answer_of(pikhsen_argon2_hash(type, of->version, of->t_cost, of->m_cost, of->lanes, (char *)of->pwd,
		    of->pwdlen, of->salt, of->saltlen, of->secret, of->secretlen, of->ad, of->adlen, NO_KIB, NO_OPS, tag,
		    of->outlen));
	if (answer != ARGON2_OK)
		return answer;
	if (of->flags & ARGON2_FLAG_CLEAR_PASSWORD)
		clear(of->pwd, &of->pwdlen);
	if (of->flags & ARGON2_FLAG_CLEAR_SECRET)
		clear(of->secret, &of->secretlen);
	memcpy(of->out, tag, of->outlen);
	explicit_bzero(tag, sizeof tag);
	return ARGON2_OK;
}

/* The tag is written where it is wrong, too: that is how a caller sees what would be right. */
int argon2_verify_ctx(argon2_context *of, const char *tag, argon2_type type)
{
	int answer = argon2_ctx(of, type), differ = 0;

	if (answer != ARGON2_OK)
		return answer;
	for (uint32_t i = 0; i < of->outlen; i += 1)
		differ |= of->out[i] ^ (uint8_t)tag[i];
	return differ ? ARGON2_VERIFY_MISMATCH : ARGON2_OK;
}

/* The bytes of the last part of a text, which is base64 without padding (RFC 4648, section 4). */
static void tag_of(const char *text, uint8_t *tag, size_t len)
{
	static const char digits[] = "ABCDEFGHIJKLMNOPQRSTUVWXYZabcdefghijklmnopqrstuvwxyz0123456789+/";
	uint32_t bits = 0, count = 0;

	for (text = strrchr(text, '$') + 1; len > 0; text += 1) {
		bits = bits << 6 | (uint32_t)(strchr(digits, *text) - digits);
		count += 6;
		if (count >= 8) {
			count -= 8;
			*tag++ = (uint8_t)(bits >> count);
			len -= 1;
		}
	}
}

int argon2_hash(uint32_t passes, uint32_t kib, uint32_t lanes, const void *password, size_t password_len,
    const void *salt, size_t salt_len, void *tag, size_t tag_len, char *text, size_t room, argon2_type type,
    uint32_t version)
{
	uint8_t made[MOST_TAG];
	char line[PIKHSEN_ENCODED_ROOM(MOST_SALT, MOST_TAG)];
	argon2_context of = {.out = made, .outlen = (uint32_t)tag_len, .pwd = (void *)password,
	    .pwdlen = (uint32_t)password_len, .salt = (void *)salt, .saltlen = (uint32_t)salt_len, .t_cost = passes,
	    .m_cost = kib, .lanes = lanes, .threads = lanes, .version = version};
	size_t line_len = 0;
	int answer;

	if (password_len > ARGON2_MAX_PWD_LENGTH) return ARGON2_PWD_TOO_LONG;
	if (salt_len > ARGON2_MAX_SALT_LENGTH) return ARGON2_SALT_TOO_LONG;
	if (tag_len > ARGON2_MAX_OUTLEN) return ARGON2_OUTPUT_TOO_LONG;
	if (!text || room == 0) {
		answer = argon2_ctx(&of, type);
	} else if ((answer = refused(&of, type)) == ARGON2_OK) {
		answer = answer_of(pikhsen_argon2_encoded(type, version, passes, kib, lanes, password, password_len, salt,
		    salt_len, tag_len, NO_KIB, NO_OPS, line, room < sizeof line ? room : sizeof line, &line_len));
		if (answer == ARGON2_OK)
			tag_of(line, made, tag_len);
	}
	if (answer != ARGON2_OK)
		return answer;
	if (line_len > 0)
		memcpy(text, line, line_len + 1);
	if (tag)
		memcpy(tag, made, tag_len);
	explicit_bzero(line, sizeof line);
	explicit_bzero(made, sizeof made);
	return ARGON2_OK;
}

/* A text of another type is none of this type. */
int argon2_verify(const char *text, const void *password, size_t password_len, argon2_type type)
{
	struct pikhsen_argon2_settings settings;
	int answer;

	if (password_len > ARGON2_MAX_PWD_LENGTH) return ARGON2_PWD_TOO_LONG;
	if (!text) return ARGON2_DECODING_FAIL;
	if (!argon2_type2string(type, 0)) return ARGON2_INCORRECT_TYPE;
	if ((answer = answer_of(pikhsen_argon2_settings(text, strlen(text), &settings))) != ARGON2_OK) return answer;
	if (settings.kind != (unsigned int)type) return ARGON2_DECODING_FAIL;
	if (!password && password_len) return ARGON2_PWD_PTR_MISMATCH;
	return answer_of(pikhsen_argon2_verify(text, strlen(text), password, password_len, NO_KIB, NO_OPS));
}

/* The five functions of each type. */
#define OF_TYPE(name, type) \
	int name##_ctx(argon2_context *of) \
	{ \
		return argon2_ctx(of, type); \
	} \
	int name##_verify_ctx(argon2_context *of, const char *tag) \
	{ \
		return argon2_verify_ctx(of, tag, type); \
	} \
	int name##_hash_raw(uint32_t passes, uint32_t kib, uint32_t lanes, const void *password, size_t password_len, \
	    const void *salt, size_t salt_len, void *tag, size_t tag_len) \
	{ \
		return argon2_hash(passes, kib, lanes, password, password_len, salt, salt_len, tag, tag_len, NULL, 0, type, \
		    ARGON2_VERSION_NUMBER); \
	} \
	int name##_hash_encoded(uint32_t passes, uint32_t kib, uint32_t lanes, const void *password, size_t password_len, \
	    const void *salt, size_t salt_len, size_t tag_len, char *text, size_t room) \
	{ \
		return argon2_hash(passes, kib, lanes, password, password_len, salt, salt_len, NULL, tag_len, text, room, type, \
		    ARGON2_VERSION_NUMBER); \
	} \
	int name##_verify(const char *text, const void *password, size_t password_len) \
	{ \
		return argon2_verify(text, password, password_len, type); \
	}
OF_TYPE(argon2d, Argon2_d)
OF_TYPE(argon2i, Argon2_i)
OF_TYPE(argon2id, Argon2_id)

const char *argon2_type2string(argon2_type type, int uppercase)
{
	switch (type) {
	case Argon2_d: return uppercase ? "Argon2d" : "argon2d";
	case Argon2_i: return uppercase ? "Argon2i" : "argon2i";
	case Argon2_id: return uppercase ? "Argon2id" : "argon2id";
	default: return NULL;
	}
}

static size_t digits_of(uint32_t number)
{
	size_t len = 1;

	while (number /= 10)
		len += 1;
	return len;
}

static size_t symbols_of(uint32_t len)
{
	return ((size_t)4 * len + 2) / 3;
}

/* With the byte 0 at its end. */
size_t argon2_encodedlen(uint32_t passes, uint32_t kib, uint32_t lanes, uint32_t salt_len, uint32_t tag_len,
    argon2_type type)
{
	const char *name = argon2_type2string(type, 0);

	return !name ? 0 : strlen(name) + sizeof "$$v=19$m=,t=,p=$$" + digits_of(kib) + digits_of(passes) + digits_of(lanes)
	    + symbols_of(salt_len) + symbols_of(tag_len);
}

const char *argon2_error_message(int answer)
{
	switch (answer) {
	case ARGON2_OK: return "no error";
	case ARGON2_OUTPUT_PTR_NULL: return "no place for the tag";
	case ARGON2_OUTPUT_TOO_SHORT: return "the tag is shorter than 4 bytes";
	case ARGON2_OUTPUT_TOO_LONG: return "the tag is longer than 4096 bytes";
	case ARGON2_PWD_TOO_SHORT: return "the password is too short";
	case ARGON2_PWD_TOO_LONG: return "the password is 2^32 bytes or longer";
	case ARGON2_SALT_TOO_SHORT: return "the salt is shorter than 8 bytes";
	case ARGON2_SALT_TOO_LONG: return "the salt is longer than 255 bytes";
	case ARGON2_AD_TOO_SHORT: return "the associated data are too short";
	case ARGON2_AD_TOO_LONG: return "the associated data are too long";
	case ARGON2_SECRET_TOO_SHORT: return "the secret is too short";
	case ARGON2_SECRET_TOO_LONG: return "the secret is too long";
	case ARGON2_TIME_TOO_SMALL: return "there are no passes";
	case ARGON2_TIME_TOO_LARGE: return "there are too many passes";
	case ARGON2_MEMORY_TOO_LITTLE: return "the memory is less than 8 KiB for each lane";
	case ARGON2_MEMORY_TOO_MUCH: return "the memory is too much";
	case ARGON2_LANES_TOO_FEW: return "there are no lanes";
	case ARGON2_LANES_TOO_MANY: return "there are 2^24 lanes or more";
	case ARGON2_PWD_PTR_MISMATCH: return "the password has a length, but no place";
	case ARGON2_SALT_PTR_MISMATCH: return "the salt has a length, but no place";
	case ARGON2_SECRET_PTR_MISMATCH: return "the secret has a length, but no place";
	case ARGON2_AD_PTR_MISMATCH: return "the associated data have a length, but no place";
	case ARGON2_MEMORY_ALLOCATION_ERROR: return "memory was refused, or is to come from allocate_cbk";
	case ARGON2_FREE_MEMORY_CBK_NULL: return "allocate_cbk is given, but no free_cbk";
	case ARGON2_ALLOCATE_MEMORY_CBK_NULL: return "free_cbk is given, but no allocate_cbk";
	case ARGON2_INCORRECT_PARAMETER: return "there is no context, or its version is neither 0x10 nor 0x13";
	case ARGON2_INCORRECT_TYPE: return "there is no such type";
	case ARGON2_OUT_PTR_MISMATCH: return "the tag has a length, but no place";
	case ARGON2_THREADS_TOO_FEW: return "there are no threads";
	case ARGON2_THREADS_TOO_MANY: return "there are 2^24 threads or more";
	case ARGON2_MISSING_ARGS: return "an argument is missing";
	case ARGON2_ENCODING_FAIL: return "the text has no room";
	case ARGON2_DECODING_FAIL: return "the text is no hash of this type, or has a value out of range";
	case ARGON2_THREAD_FAIL: return "a thread failed";
	case ARGON2_DECODING_LENGTH_FAIL: return "a length in the text is out of range";
	case ARGON2_VERIFY_MISMATCH: return "the password is not that of the hash";
	default: return "there is no such error";
	}
}
