/*
 * pikhsen.h: Argon2 (RFC 9106, and its version 0x10), scrypt (RFC 7914) and scrypt's encrypted files, version 0, from
 * proved libraries. For Linux on x86-64. man 3 pikhsen says more. The library does not test the processor: below
 * x86-64-v2 the process may end with an illegal instruction.
 *
 * For every function:
 *
 *  - Each but pikhsen_version returns a status of enum pikhsen_status. Unless it is PIKHSEN_OK, the output is
 *    unchanged, except as noted at the function. PIKHSEN_OK is 0: compare the result with it.
 *  - Bytes are a pointer and a length: to char for passwords, passphrases and texts, which C has as strings, and to void
 *    for others. A length is below 2^63, and has no byte 0 at a string's end in it. If it is 0, the pointer is never
 *    read, and may be null, as an empty slice of Go or Buffer of Node has it. That null is accepted is tested
 *    (tests/library/c_face.c), not proved. Other pointers must not be null, and must be aligned as their types are.
 *  - MEMORY THAT A FUNCTION WRITES MUST NOT OVERLAP ANYTHING ELSE THAT IS PASSED TO IT, and no other thread may touch
 *    it during the call. The library cannot see an overlap, and returns PIKHSEN_OK although what it wrote is wrong.
 *    What it writes need not be set before. Memory that it reads must not be written during the call.
 *  - No function keeps a state between calls, but in a pikhsen_stream that it is given. So any number of threads may
 *    call at the same time, each with streams of its own.
 *  - Memory comes from malloc alone, and all of it goes to free before the function returns, but the block of a stream
 *    that runs. For a block of 2 MiB or more 2 MiB more are requested, and madvise asks for huge pages, and that core
 *    files do not have it, until it is freed. A call needs a stack of 64 KiB. It writes no file, reads no clock, starts
 *    no thread, sets no errno unless malloc or madvise do, and never ends the process.
 *  - Before a function that derives, hashes or has a stream returns, it puts zeros over 32 KiB of the stack below its
 *    own frame, where its work was, over the memory of the hash or the derivation and the block of a stream before that
 *    is freed, and into the vector registers; this is tested, not proved. Salt, tag and text of a hash are freed as
 *    they are. General registers may hold a piece of a key, which a later call of a function whose name is not bound
 *    yet may store: link with -z now.
 *  - No function may be called from a signal handler, or in the forked child of a process with threads.
 */
#ifndef PIKHSEN_H
#define PIKHSEN_H

#include <stddef.h>

#ifdef __cplusplus
extern "C" {
#endif

/* The version of this header; pikhsen_version() tells that of the library. */
#define PIKHSEN_VERSION 100u

/* At each function whose result must be tested; and if its n-th parameter has no length and must not be null. */
#ifdef __GNUC__
#define PIKHSEN_MUST_CHECK __attribute__((__warn_unused_result__))
#define PIKHSEN_NOT_NULL(n) __attribute__((__nonnull__(n)))
#else
#define PIKHSEN_MUST_CHECK
#define PIKHSEN_NOT_NULL(n)
#endif

/* A number of 64 bits. */
typedef unsigned long pikhsen_u64;
typedef char pikhsen_needs_lp64[sizeof(pikhsen_u64) == 8 && sizeof(unsigned int) == 4 && sizeof(size_t) == 8 ? 1 : -1];

/* The result of a call. If there are several reasons to refuse, the first in the order of the function's tests. */
enum pikhsen_status {
	PIKHSEN_OK = 0,                /* the call did its work */
	PIKHSEN_PASSES = 1,            /* Argon2: passes are not 1 to 2^32-1 */
	PIKHSEN_LANES = 2,             /* Argon2: lanes are not 1 to 2^24-1 */
	PIKHSEN_MEMORY = 3,            /* Argon2: memory is not 8 * lanes to 2^32-1 KiB */
	PIKHSEN_TAG_LENGTH = 4,        /* Argon2: the tag is not 4 to 4096 bytes long */
	PIKHSEN_SALT_LENGTH = 5,       /* Argon2: the salt is not 8 to 255 bytes long */
	PIKHSEN_PASSWORD_LENGTH = 6,   /* Argon2: the password is 2^32 bytes or longer */
	PIKHSEN_MEMORY_LIMIT = 7,      /* more memory is needed than the limit allows */
	PIKHSEN_WORK_LIMIT = 8,        /* more work is needed than the limit allows */
	PIKHSEN_OUT_OF_MEMORY = 9,     /* memory was refused */
	PIKHSEN_KIND = 10,             /* Argon2: the kind is not 0, 1 or 2 */
	PIKHSEN_ARGON2_VERSION = 11,   /* Argon2: the version is not 0x10 or 0x13 */
	PIKHSEN_INPUT_LENGTH = 12,     /* Argon2: the secret or the data is 2^32 bytes or longer */
	PIKHSEN_BUFFER = 13,           /* out is not as long as the function needs */
	PIKHSEN_NOT_ENCODED = 14,      /* the text is not an encoded hash */
	PIKHSEN_OUT_OF_RANGE = 15,     /* the text is an encoded hash with a value out of range */
	PIKHSEN_MISMATCH = 16,         /* the password is not that of the text */
	PIKHSEN_LOG_N = 17,            /* scrypt: log2 N is not 1 to 63 */
	PIKHSEN_ZERO = 18,             /* scrypt: r or p is below 1 */
	PIKHSEN_PRODUCT = 19,          /* scrypt: r * p is 2^30 or more */
	PIKHSEN_KEEP = 20,             /* scrypt: keep is not a power of two from 1 to 1024 */
	PIKHSEN_KEEP_ABOVE_N = 21,     /* scrypt: keep is above N */
	PIKHSEN_MAGIC = 22,            /* file: it does not begin with "scrypt" */
	PIKHSEN_FORMAT_VERSION = 23,   /* file: the version of its format is not 0 */
	PIKHSEN_CHECKSUM = 24,         /* file: the checksum of its header is wrong */
	PIKHSEN_FILE_COSTS = 25,       /* file: its costs are out of range */
	PIKHSEN_TOO_SHORT = 26,        /* file: it is shorter than 96 bytes, or than 64 to read its costs alone */
	PIKHSEN_WRONG_PASSPHRASE = 27, /* file: the passphrase is not the file's */
	PIKHSEN_DAMAGED = 28,          /* file: it is damaged, or cut short, after its first 96 bytes */
	PIKHSEN_TOO_LONG = 29,         /* file: the text is 2^60 bytes or longer */
	PIKHSEN_FILE_SALT = 30,        /* file: the salt is not 32 bytes long */
	PIKHSEN_TEXT_VERSION = 31,     /* text: its version is not 16 or 19 */
	PIKHSEN_TEXT_PASSES = 32,      /* text: its passes are not 1 to 2^32-1 */
	PIKHSEN_TEXT_LANES = 33,       /* text: its lanes are not 1 to 2^24-1 */
	PIKHSEN_TEXT_MEMORY = 34,      /* text: its memory is not 8 * lanes to 2^32-1 KiB */
	PIKHSEN_TEXT_TAG_LENGTH = 35,  /* text: its tag is not 4 to 4096 bytes long */
	PIKHSEN_TEXT_SALT_LENGTH = 36, /* text: its salt is not 8 to 255 bytes long */
	PIKHSEN_STREAM = 37            /* file: the stream runs already, or does not run in this direction */
};

/* So many bytes have room for every sentence of pikhsen_message, and the byte 0 after it. */
#define PIKHSEN_MESSAGE_ROOM 80

/*
 * Writes the sentence of a status, as above, with a byte 0 after it. The length without that byte goes to *text_len,
 * which is 0 after any result but PIKHSEN_OK. For a number that the library does not know, the sentence says so. If
 * out is too small, the result is PIKHSEN_BUFFER.
 */
PIKHSEN_MUST_CHECK PIKHSEN_NOT_NULL(4)
unsigned int pikhsen_message(unsigned int status, char *out, size_t out_len, size_t *text_len);

enum pikhsen_kind { PIKHSEN_ARGON2D = 0, PIKHSEN_ARGON2I = 1, PIKHSEN_ARGON2ID = 2 };

/* The version of the library: 10000 * the first of its three numbers, 100 * the second, and the third. */
unsigned int pikhsen_version(void);

/*
 * Writes the tag of a password, as many bytes as out has, 4 to 4096. version is 0x13, or 0x10 for old hashes. The
 * password has 0 to 2^32-1 bytes, as RFC 9106 has it: AN EMPTY PASSWORD IS ACCEPTED. The call is refused, before memory
 * is requested, if it needs more than max_kib blocks of 1 KiB or max_ops block functions. The number of blocks B is
 * memory_kib, rounded down to a multiple of 4 * lanes. The block functions are passes * B - 2 * lanes, and two more for
 * every 128 blocks, or part of them, of each segment (B / (4 * lanes) blocks) whose accesses do not depend on the
 * password: there are 4 * lanes * passes of these for Argon2i, 2 * lanes for Argon2id, none for Argon2d. So
 * 2 * passes * memory_kib block functions are always enough; multiply as pikhsen_u64.
 */
PIKHSEN_MUST_CHECK
unsigned int pikhsen_argon2_hash(unsigned int kind, unsigned int version, unsigned int passes, unsigned int memory_kib,
    unsigned int lanes, const char *password, size_t password_len, const void *salt, size_t salt_len,
    const void *secret, size_t secret_len, const void *associated, size_t associated_len, unsigned int max_kib,
    pikhsen_u64 max_ops, void *out, size_t out_len);

/* So many bytes have room for every encoded text with a salt and a tag of these lengths, and the byte 0 after it. */
#define PIKHSEN_ENCODED_ROOM(salt_len, tag_len) \
	(56ul + (4ul * (salt_len) + 2ul) / 3ul + (4ul * (tag_len) + 2ul) / 3ul)

/*
 * Hashes, and writes the encoded text, "$argon2id$v=19$m=..", with a byte 0 after it. The length without that byte goes
 * to *text_len, which is 0 after any result but PIKHSEN_OK. Passwords and limits as above: refuse an empty password
 * before you enrol it. The salt must be new and random for each password.
 */
PIKHSEN_MUST_CHECK PIKHSEN_NOT_NULL(15)
unsigned int pikhsen_argon2_encoded(unsigned int kind, unsigned int version, unsigned int passes,
    unsigned int memory_kib, unsigned int lanes, const char *password, size_t password_len, const void *salt,
    size_t salt_len, size_t tag_len, unsigned int max_kib, pikhsen_u64 max_ops, char *out, size_t out_len,
    size_t *text_len);

/*
 * Returns PIKHSEN_OK if the password is that of an encoded text, and PIKHSEN_MISMATCH if it is not; any other result
 * leaves that open. PIKHSEN_OK is 0, so compare with it: "if (pikhsen_argon2_verify(..))" takes a yes for a no. Nothing
 * may follow the text, not even a byte 0. A text without a version is one of version 0x10. A text can ask for 4 TiB and
 * for days, so limits, as above, are tested before memory for the hash is requested; memory for the text's salt and
 * tag, together less than text_len bytes, is requested before that. No limit counts the bytes of the password, and all
 * of them are read once, so the time of a call grows with their number: a service bounds the length of what a stranger
 * sends before it calls.
 */
PIKHSEN_MUST_CHECK
unsigned int pikhsen_argon2_verify(const char *text, size_t text_len, const char *password, size_t password_len,
    unsigned int max_kib, pikhsen_u64 max_ops);

/*
 * The two functions above with a secret and associated data, as pikhsen_argon2_hash has them; either may be empty.
 * THE TEXT HOLDS NEITHER, and does not say that they were given: the test needs the same two again. With others, or
 * without them, the result for the right password is PIKHSEN_MISMATCH. So a secret that is kept apart from the texts
 * protects them, and if it is lost no password can be tested. All else is as above.
 */
PIKHSEN_MUST_CHECK PIKHSEN_NOT_NULL(19)
unsigned int pikhsen_argon2_encoded_keyed(unsigned int kind, unsigned int version, unsigned int passes,
    unsigned int memory_kib, unsigned int lanes, const char *password, size_t password_len, const void *salt,
    size_t salt_len, const void *secret, size_t secret_len, const void *associated, size_t associated_len,
    size_t tag_len, unsigned int max_kib, pikhsen_u64 max_ops, char *out, size_t out_len, size_t *text_len);

PIKHSEN_MUST_CHECK
unsigned int pikhsen_argon2_verify_keyed(const char *text, size_t text_len, const char *password, size_t password_len,
    const void *secret, size_t secret_len, const void *associated, size_t associated_len, unsigned int max_kib,
    pikhsen_u64 max_ops);

/* What an encoded text says of its hash, with the lengths of its salt and its tag in place of their bytes. */
struct pikhsen_argon2_settings {
	unsigned int kind, version, passes, memory_kib, lanes;
	size_t salt_len, tag_len;
};

/*
 * Reads the settings of an encoded text. Nothing is hashed, so there is no limit; memory for the text's salt and tag,
 * together less than text_len bytes, is requested. If a value is out of range, pikhsen_argon2_verify returns
 * PIKHSEN_OUT_OF_RANGE, and this function returns which one: the first, in the order of PIKHSEN_TEXT_VERSION to
 * PIKHSEN_TEXT_SALT_LENGTH.
 */
PIKHSEN_MUST_CHECK PIKHSEN_NOT_NULL(3)
unsigned int pikhsen_argon2_settings(const char *text, size_t text_len, struct pikhsen_argon2_settings *settings);

/*
 * Writes 0 to *needs if the settings of an encoded text, both lengths included, are those that are wanted, and 1 if any
 * of them is weaker or stronger. LOOK AT *needs, NOT AT THE RESULT ALONE: PIKHSEN_OK says only that the text was read.
 * Any other result is one of pikhsen_argon2_settings, and leaves *needs unchanged. Call it after a successful login,
 * while the password is there for a new hash.
 */
PIKHSEN_MUST_CHECK PIKHSEN_NOT_NULL(3) PIKHSEN_NOT_NULL(4)
unsigned int pikhsen_argon2_needs_rehash(const char *text, size_t text_len,
    const struct pikhsen_argon2_settings *wanted, unsigned int *needs);

/*
 * Writes the key of a password, as many bytes as out has, at most 32 * (2^32-1). N is 2^log_n. With keep 1 the whole
 * table is kept; with keep S, a power of two up to 1024 and N, only every S-th row is, which takes 1/S of the memory
 * and up to (1 + S) / 2 times the work; the key is the same. It is refused, before memory is requested, if the rows
 * that are kept, 128 * r * N / S bytes, or 128 * r * p bytes, are more than max_bytes or 2^40, or 2 * r * p * N * (1 +
 * S) cores of Salsa20/8 are more than max_ops. max_bytes limits only the rows that are kept: two rows of 128 * r bytes,
 * or three with S above 1, come beside them, so where r is great and N / S small up to four times as much is taken.
 */
PIKHSEN_MUST_CHECK
unsigned int pikhsen_scrypt(const char *password, size_t password_len, const void *salt, size_t salt_len,
    unsigned int log_n, unsigned int r, unsigned int p, unsigned int keep, pikhsen_u64 max_bytes, pikhsen_u64 max_ops,
    void *out, size_t out_len);

/* What the header of a file says. */
struct pikhsen_scrypt_costs {
	unsigned int log_n, r, p;
};

/* Bytes that a file has more than its text. */
#define PIKHSEN_FILE_OVERHEAD 128

/*
 * Reads the costs from the first 64 bytes of a file; if there are fewer, the result is PIKHSEN_TOO_SHORT. Anyone can
 * make such a header: it says what opening the file would take, and not who wrote it.
 */
PIKHSEN_MUST_CHECK PIKHSEN_NOT_NULL(3)
unsigned int pikhsen_scrypt_info(const void *file, size_t file_len, struct pikhsen_scrypt_costs *costs);

/*
 * Writes the encrypted file of a text. out_len is text_len + PIKHSEN_FILE_OVERHEAD. The salt has 32 bytes, AND MUST BE
 * NEW AND RANDOM FOR EACH FILE: two files of one passphrase, salt and costs are encrypted with one key stream, which
 * betrays their texts. AN EMPTY PASSPHRASE IS ACCEPTED, and anybody can open such a file. Costs, keep and limits as
 * above; the file does not depend on keep. TEXT AND OUT MUST NOT OVERLAP: if they do, as with text == out, THE TEXT IS
 * LOST, and the result may be PIKHSEN_OK. pikhsen_scrypt_encrypt_in_place is for that.
 */
PIKHSEN_MUST_CHECK
unsigned int pikhsen_scrypt_encrypt(const char *passphrase, size_t passphrase_len, const void *salt, size_t salt_len,
    unsigned int log_n, unsigned int r, unsigned int p, unsigned int keep, pikhsen_u64 max_bytes, pikhsen_u64 max_ops,
    const void *text, size_t text_len, void *out, size_t out_len);

/*
 * Encrypts in place: the text is all of out except its last PIKHSEN_FILE_OVERHEAD bytes, which need not be set, and the
 * file takes all of out. After any result but PIKHSEN_OK out is unchanged. If it has fewer bytes than
 * PIKHSEN_FILE_OVERHEAD, the result is PIKHSEN_BUFFER. All else is as above: a new and random salt of 32 bytes for each
 * file.
 */
PIKHSEN_MUST_CHECK
unsigned int pikhsen_scrypt_encrypt_in_place(const char *passphrase, size_t passphrase_len, const void *salt,
    size_t salt_len, unsigned int log_n, unsigned int r, unsigned int p, unsigned int keep, pikhsen_u64 max_bytes,
    pikhsen_u64 max_ops, void *out, size_t out_len);

/*
 * Writes the text of a file to the front of out, zeros after it, and its length to *text_len. out has at least file_len
 * bytes. The result is PIKHSEN_OK only if the whole file, its final code included, is an encryption of that text under
 * the passphrase. After any other result *text_len is 0 and out holds nothing of the text: after PIKHSEN_DAMAGED and
 * PIKHSEN_TOO_LONG all its bytes are 0, after others it is unchanged. During the call out holds text that is not yet
 * tested: give it memory that nobody else reads. Fewer than 96 bytes are PIKHSEN_TOO_SHORT. keep and limits as above.
 */
PIKHSEN_MUST_CHECK PIKHSEN_NOT_NULL(10)
unsigned int pikhsen_scrypt_decrypt(const char *passphrase, size_t passphrase_len, unsigned int keep,
    pikhsen_u64 max_bytes, pikhsen_u64 max_ops, const void *file, size_t file_len, void *out, size_t out_len,
    size_t *text_len);

/*
 * A file in pieces, in memory that does not grow with it. A stream is one encryption or decryption, which the caller
 * starts, feeds and finishes. It is all zeros at first:
 *
 *	pikhsen_stream stream = PIKHSEN_STREAM_NEW;
 *
 * A start takes one block of about 2.5 KiB by malloc, which has the keys; a finish, or pikhsen_stream_free, puts zeros
 * over the block and frees it. Then the stream may be started again. While it runs, nobody writes, copies or moves the
 * struct, and one call at a time uses it, from any thread: the library cannot see it if this is broken. A stream that
 * runs and is neither finished nor freed leaves its keys in memory.
 *
 * PIKHSEN_STREAM: the stream runs where it is to be started, or does not run where it is to be fed or finished, or runs
 * in the other direction. It is then as it was before the call, and so after any other refusal of a start or a feed.
 */
typedef struct {
	unsigned char runs; /* 0; or 1 if an encryption runs, 2 if a decryption does */
	void *state;
} pikhsen_stream;
#define PIKHSEN_STREAM_NEW { 0, NULL }

/* The bytes of a file before its text and after it. */
#define PIKHSEN_FILE_HEAD 96
#define PIKHSEN_FILE_CODE 32

/*
 * Encrypts in pieces. The file is the PIKHSEN_FILE_HEAD bytes that start writes to head, then each piece of the text as
 * feed encrypts it in its place, then the PIKHSEN_FILE_CODE bytes that finish writes to code: all together what
 * pikhsen_scrypt_encrypt writes. Pieces are of any lengths. start refuses what pikhsen_scrypt_encrypt refuses, and all
 * memory is requested before a key is derived. If head or code has another length, the result is PIKHSEN_BUFFER; if the
 * text would reach 2^60 bytes, that of feed is PIKHSEN_TOO_LONG. After a refusal bytes, head and code are unchanged.
 * Without what finish writes a file is not whole: each reader refuses it.
 */
PIKHSEN_MUST_CHECK PIKHSEN_NOT_NULL(11)
unsigned int pikhsen_scrypt_encrypt_start(const char *passphrase, size_t passphrase_len, const void *salt,
    size_t salt_len, unsigned int log_n, unsigned int r, unsigned int p, unsigned int keep, pikhsen_u64 max_bytes,
    pikhsen_u64 max_ops, pikhsen_stream *stream, void *head, size_t head_len);
PIKHSEN_MUST_CHECK PIKHSEN_NOT_NULL(1)
unsigned int pikhsen_scrypt_encrypt_feed(pikhsen_stream *stream, void *bytes, size_t bytes_len);
PIKHSEN_MUST_CHECK PIKHSEN_NOT_NULL(1)
unsigned int pikhsen_scrypt_encrypt_finish(pikhsen_stream *stream, void *code, size_t code_len);

/*
 * Decrypts in pieces. start reads the first PIKHSEN_FILE_HEAD bytes of front, and feed, piece by piece, all that comes
 * after them in the file. feed writes the text that it releases to the front of out, and the number of its bytes to
 * *released: at most as many as the piece has, and 0 after any result but PIKHSEN_OK. out has at least
 * PIKHSEN_FILE_CODE bytes more than the piece, else the result is PIKHSEN_BUFFER; after the released bytes come the last
 * of the file that were read, which are held back, as they were read, and then what stood there before. start refuses
 * what pikhsen_scrypt_decrypt refuses, a wrong passphrase among it; keep and limits as there.
 *
 * WHAT feed RELEASES IS NOT YET TESTED: anyone may have changed the file. finish says whether that is so: PIKHSEN_OK
 * only if all that was read is an encryption of all that was released. If the result is not 0, throw all of the text
 * away: PIKHSEN_DAMAGED is told for a file that was changed or cut short. Until then act on none of it. After any
 * result but PIKHSEN_STREAM the stream does not run.
 */
PIKHSEN_MUST_CHECK PIKHSEN_NOT_NULL(8)
unsigned int pikhsen_scrypt_decrypt_start(const char *passphrase, size_t passphrase_len, unsigned int keep,
    pikhsen_u64 max_bytes, pikhsen_u64 max_ops, const void *front, size_t front_len, pikhsen_stream *stream);
PIKHSEN_MUST_CHECK PIKHSEN_NOT_NULL(1) PIKHSEN_NOT_NULL(6)
unsigned int pikhsen_scrypt_decrypt_feed(pikhsen_stream *stream, const void *piece, size_t piece_len, void *out,
    size_t out_len, size_t *released);
PIKHSEN_MUST_CHECK PIKHSEN_NOT_NULL(1)
unsigned int pikhsen_scrypt_decrypt_finish(pikhsen_stream *stream);

/*
 * Ends a stream in whatever state it is: if it runs, zeros are put over its block, and it is freed. Returns PIKHSEN_OK.
 * The stream may be started again.
 */
PIKHSEN_NOT_NULL(1)
unsigned int pikhsen_stream_free(pikhsen_stream *stream);

#ifdef __cplusplus
}
#endif

#endif
