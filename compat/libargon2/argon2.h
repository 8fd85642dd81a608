/*
 * The interface of libargon2.so.1, as programs that are linked to it know it: types, numbers and the names of 22
 * functions. libargon2.c has them over libpikhsen. tests/library/compat.py compares sizes and numbers with those of
 * Debian's argon2.h, where that is installed. Programs are compiled with that one, not with this.
 */
#ifndef ARGON2_H
#define ARGON2_H

#include <stddef.h>
#include <stdint.h>

#ifdef __cplusplus
extern "C" {
#endif

/* What the reference implementation takes. libpikhsen takes less of some: libargon2.c says what. */
#define ARGON2_MIN_LANES 1u
#define ARGON2_MAX_LANES 0xFFFFFFu
#define ARGON2_MIN_THREADS 1u
#define ARGON2_MAX_THREADS 0xFFFFFFu
#define ARGON2_SYNC_POINTS 4u
#define ARGON2_MIN_OUTLEN 4u
#define ARGON2_MAX_OUTLEN UINT32_MAX
#define ARGON2_MIN_MEMORY (2 * ARGON2_SYNC_POINTS)
#define ARGON2_MAX_MEMORY_BITS 32u
#define ARGON2_MAX_MEMORY UINT32_MAX
#define ARGON2_MIN_TIME 1u
#define ARGON2_MAX_TIME UINT32_MAX
#define ARGON2_MIN_PWD_LENGTH 0u
#define ARGON2_MAX_PWD_LENGTH UINT32_MAX
#define ARGON2_MIN_AD_LENGTH 0u
#define ARGON2_MAX_AD_LENGTH UINT32_MAX
#define ARGON2_MIN_SALT_LENGTH 8u
#define ARGON2_MAX_SALT_LENGTH UINT32_MAX
#define ARGON2_MIN_SECRET 0u
#define ARGON2_MAX_SECRET UINT32_MAX

/* flags of a context: after the hash zeros are put over the password, or the secret, and its length becomes 0 */
#define ARGON2_DEFAULT_FLAGS 0u
#define ARGON2_FLAG_CLEAR_PASSWORD 1u
#define ARGON2_FLAG_CLEAR_SECRET 2u

/* The answers of all functions that hash or verify. */
enum {
	ARGON2_OK = 0,
	ARGON2_OUTPUT_PTR_NULL = -1,
	ARGON2_OUTPUT_TOO_SHORT = -2,
	ARGON2_OUTPUT_TOO_LONG = -3,
	ARGON2_PWD_TOO_SHORT = -4,
	ARGON2_PWD_TOO_LONG = -5,
	ARGON2_SALT_TOO_SHORT = -6,
	ARGON2_SALT_TOO_LONG = -7,
	ARGON2_AD_TOO_SHORT = -8,
	ARGON2_AD_TOO_LONG = -9,
	ARGON2_SECRET_TOO_SHORT = -10,
	ARGON2_SECRET_TOO_LONG = -11,
	ARGON2_TIME_TOO_SMALL = -12,
	ARGON2_TIME_TOO_LARGE = -13,
	ARGON2_MEMORY_TOO_LITTLE = -14,
	ARGON2_MEMORY_TOO_MUCH = -15,
	ARGON2_LANES_TOO_FEW = -16,
	ARGON2_LANES_TOO_MANY = -17,
	ARGON2_PWD_PTR_MISMATCH = -18,
	ARGON2_SALT_PTR_MISMATCH = -19,
	ARGON2_SECRET_PTR_MISMATCH = -20,
	ARGON2_AD_PTR_MISMATCH = -21,
	ARGON2_MEMORY_ALLOCATION_ERROR = -22,
	ARGON2_FREE_MEMORY_CBK_NULL = -23,
	ARGON2_ALLOCATE_MEMORY_CBK_NULL = -24,
	ARGON2_INCORRECT_PARAMETER = -25,
	ARGON2_INCORRECT_TYPE = -26,
	ARGON2_OUT_PTR_MISMATCH = -27,
	ARGON2_THREADS_TOO_FEW = -28,
	ARGON2_THREADS_TOO_MANY = -29,
	ARGON2_MISSING_ARGS = -30,
	ARGON2_ENCODING_FAIL = -31,
	ARGON2_DECODING_FAIL = -32,
	ARGON2_THREAD_FAIL = -33,
	ARGON2_DECODING_LENGTH_FAIL = -34,
	ARGON2_VERIFY_MISMATCH = -35
};

typedef enum { Argon2_d = 0, Argon2_i = 1, Argon2_id = 2 } argon2_type;
enum { ARGON2_VERSION_10 = 0x10, ARGON2_VERSION_13 = 0x13, ARGON2_VERSION_NUMBER = 0x13 };

/* All that a hash is made of, and where its tag goes. */
typedef struct {
	uint8_t *out;
	uint32_t outlen;
	uint8_t *pwd;
	uint32_t pwdlen;
	uint8_t *salt;
	uint32_t saltlen;
	uint8_t *secret;
	uint32_t secretlen;
	uint8_t *ad;
	uint32_t adlen;
	uint32_t t_cost;  /* passes */
	uint32_t m_cost;  /* KiB */
	uint32_t lanes;
	uint32_t threads; /* at most so many */
	uint32_t version;
	int (*allocate_cbk)(uint8_t **memory, size_t len);
	void (*free_cbk)(uint8_t *memory, size_t len);
	uint32_t flags;
} argon2_context;

int argon2_ctx(argon2_context *of, argon2_type type);
int argon2d_ctx(argon2_context *of);
int argon2i_ctx(argon2_context *of);
int argon2id_ctx(argon2_context *of);

int argon2_verify_ctx(argon2_context *of, const char *tag, argon2_type type);
int argon2d_verify_ctx(argon2_context *of, const char *tag);
int argon2i_verify_ctx(argon2_context *of, const char *tag);
int argon2id_verify_ctx(argon2_context *of, const char *tag);

/* The tag, the encoded text, or both: where there is room for them. */
int argon2_hash(uint32_t passes, uint32_t kib, uint32_t lanes, const void *password, size_t password_len,
    const void *salt, size_t salt_len, void *tag, size_t tag_len, char *text, size_t room, argon2_type type,
    uint32_t version);

#define ARGON2_OF_TYPE(name) \
	int name##_hash_encoded(uint32_t passes, uint32_t kib, uint32_t lanes, const void *password, size_t password_len, \
	    const void *salt, size_t salt_len, size_t tag_len, char *text, size_t room); \
	int name##_hash_raw(uint32_t passes, uint32_t kib, uint32_t lanes, const void *password, size_t password_len, \
	    const void *salt, size_t salt_len, void *tag, size_t tag_len); \
	int name##_verify(const char *text, const void *password, size_t password_len)
ARGON2_OF_TYPE(argon2d);
ARGON2_OF_TYPE(argon2i);
ARGON2_OF_TYPE(argon2id);

int argon2_verify(const char *text, const void *password, size_t password_len, argon2_type type);

const char *argon2_type2string(argon2_type type, int uppercase);
size_t argon2_encodedlen(uint32_t passes, uint32_t kib, uint32_t lanes, uint32_t salt_len, uint32_t tag_len,
    argon2_type type);
const char *argon2_error_message(int answer);

#ifdef __cplusplus
}
#endif

#endif
