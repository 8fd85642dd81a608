/*
 * What each call of the table below leaves, a line for each, for tests/library/c_face.py:
 *
 *     secrets painted      on the stack below the frame of a function, which is painted before
 *     secrets freed        in each block of memory that is freed, or, where the call also frees the text of a hash,
 *                          which is no secret, in each of 1,024 bytes and more
 *     secrets registers    in all vector registers that the processor has, which hold zeros before
 *
 * or keeps one call's process, so that its memory can be searched:
 *
 *     secrets CALL            makes the call, says "0" where it was told PIKHSEN_OK, wipes the key that it gave, and
 *                             waits for the end of standard input
 *     secrets kept            the same of a key by scrypt, which stays where the call wrote it
 *     secrets stack           the same, in an array on the stack
 *     secrets again CALL      says the same, and makes the call again and again, for a minute if nobody ends the
 *                             process before, so that what a key is made of can be found while it is still there
 */
#include <stdio.h>
#include <stdlib.h>
#include <string.h>
#include <unistd.h>

#include "pikhsen.h"
#include "refusing.h"

#define NOINLINE __attribute__((noinline))

static const pikhsen_u64 most = 1ul << 30;
static const char passphrase[] = "pw", none[] = "";
static unsigned char salt[32], text[1128], file[1128], key[64];
static char encoded[PIKHSEN_ENCODED_ROOM(32, 32)];
static size_t len;

typedef unsigned int (*call_t)(void);

/* Arguments that belong together. */
#define ARGON2ID(kib) PIKHSEN_ARGON2ID, 0x13, 1, kib, 2, passphrase, 2, salt, 32
#define KEYED passphrase, 2, salt, 8
#define PW_AND_SALT passphrase, 2, salt, 32
#define TEXT encoded, sizeof encoded
#define WIDE most, most
#define OF_TEXT encoded, strlen(encoded), passphrase, 2

/* Calls of a stream, until one is refused. */
static unsigned int to_pieces(int is_freed)
{
	pikhsen_stream stream = PIKHSEN_STREAM_NEW;
	unsigned int told = pikhsen_scrypt_encrypt_start(PW_AND_SALT, 6, 8, 1, 1, WIDE, &stream, file, 96);

	memcpy(file + 96, text, 1000);
	told = told ? told : pikhsen_scrypt_encrypt_feed(&stream, file + 96, 1000);
	if (is_freed)
		return told ? told : pikhsen_stream_free(&stream);
	return told ? told : pikhsen_scrypt_encrypt_finish(&stream, file + 1096, 32);
}

static unsigned int of_pieces(void)
{
	pikhsen_stream stream = PIKHSEN_STREAM_NEW;
	unsigned int told = pikhsen_scrypt_decrypt_start(passphrase, 2, 1, WIDE, file, 96, &stream);

	told = told ? told : pikhsen_scrypt_decrypt_feed(&stream, file + 96, 1032, text, 1064, &len);
	return told ? told : pikhsen_scrypt_decrypt_finish(&stream);
}

static unsigned int free_seven(void), leave_key_in_three(void);

/*
 * Each call: its name, the function that makes it, the one that makes what it needs, and what it is. keyed-text and
 * keyed-test have a secret and data; sparse is a key over every fourth row of the table; wrong has another passphrase;
 * pieces-freed is a stream that is fed and freed. The last two leave something, so that it is seen to be found.
 */
#define CALLS(DO) \
	DO("hash", hash, NULL, pikhsen_argon2_hash(ARGON2ID(64), none, 0, none, 0, 64, most, key, 64)) \
	DO("encoded", encode, NULL, pikhsen_argon2_encoded(ARGON2ID(64), 32, 64, most, TEXT, &len)) \
	DO("verify", verify, encode, pikhsen_argon2_verify(OF_TEXT, 64, most)) \
	DO("keyed-text", encode_keyed, NULL, pikhsen_argon2_encoded_keyed(ARGON2ID(64), KEYED, 32, 64, most, TEXT, &len)) \
	DO("keyed-test", verify_keyed, encode_keyed, pikhsen_argon2_verify_keyed(OF_TEXT, KEYED, 64, most)) \
	DO("key", derive, NULL, pikhsen_scrypt(PW_AND_SALT, 6, 8, 1, 1, WIDE, key, 64)) \
	DO("sparse", derive_sparse, NULL, pikhsen_scrypt(PW_AND_SALT, 6, 8, 1, 4, WIDE, key, 64)) \
	DO("encrypt", encrypt, NULL, pikhsen_scrypt_encrypt(PW_AND_SALT, 6, 8, 1, 1, WIDE, text, 1000, file, 1128)) \
	DO("in-place", encrypt_in_place, NULL, pikhsen_scrypt_encrypt_in_place(PW_AND_SALT, 6, 8, 1, 1, WIDE, file, 1128)) \
	DO("decrypt", decrypt, encrypt, pikhsen_scrypt_decrypt(passphrase, 2, 1, WIDE, file, 1128, text, 1128, &len)) \
	DO("wrong", decrypt_wrongly, encrypt, pikhsen_scrypt_decrypt(passphrase, 1, 1, WIDE, file, 1128, text, 1128, &len)) \
	DO("to-pieces", encrypt_pieces, NULL, to_pieces(0)) \
	DO("of-pieces", decrypt_pieces, encrypt, of_pieces()) \
	DO("pieces-freed", free_pieces, NULL, to_pieces(1)) \
	DO("small-key", derive_small, NULL, pikhsen_scrypt(PW_AND_SALT, 2, 1, 1, 1, WIDE, key, 64)) \
	DO("large-hash", hash_large, NULL, pikhsen_argon2_hash(ARGON2ID(8192), none, 0, none, 0, 8192, most, key, 64)) \
	DO("large-key", derive_large, NULL, pikhsen_scrypt(PW_AND_SALT, 13, 8, 1, 1, WIDE, key, 64)) \
	DO("seven", seven, NULL, free_seven()) \
	DO("three", three, NULL, leave_key_in_three())
#define FUNCTION(name, call, before, answer) static unsigned int call(void) { return answer; }
CALLS(FUNCTION)

static unsigned int free_seven(void)
{
	unsigned char *block = malloc(1024);
	size_t at;

	if (block == NULL)
		return PIKHSEN_OUT_OF_MEMORY;
	/* the compiler would leave out what is written before it is freed, as here it may not */
	for (at = 0; at < 1024; ++at)
		((volatile unsigned char *)block)[at] = 7;
	free(block);
	return PIKHSEN_OK;
}

#define ROW(name, call, before, answer) {name, call, before},
static const struct {
	const char *name;
	call_t call, before;
} calls[] = {CALLS(ROW)};

/* The call of this name, once what it needs is made; where there is none, the process ends with status 2. */
static call_t call_of(const char *name)
{
	size_t at;

	for (at = 0; at < sizeof calls / sizeof calls[0]; ++at)
		if (strcmp(name, calls[at].name) == 0 && (calls[at].before == NULL || calls[at].before() == PIKHSEN_OK))
			return calls[at].call;
	exit(2);
}

/* Says "0" where a call was told PIKHSEN_OK; whether that could be said. */
static int is_said(unsigned int told)
{
	return write(1, told == PIKHSEN_OK ? "0\n" : "1\n", 2) == 2;
}

/* Says what a call was told, and waits; the status with which the process ends. */
static int wait_after(unsigned int told)
{
	char end;

	return !is_said(told) || read(0, &end, 1) < 0;
}

/* Waits while the frame that has the key is not yet left. */
static NOINLINE int wait_with_key_on_stack(void)
{
	unsigned char on_stack[64];

	return wait_after(pikhsen_scrypt(PW_AND_SALT, 6, 8, 1, 1, WIDE, on_stack, 64));
}

static int wait_after_call(const char *what)
{
	unsigned int told;

	if (strcmp(what, "kept") == 0)
		return wait_after(derive());
	if (strcmp(what, "stack") == 0)
		return wait_with_key_on_stack();
	told = call_of(what)();
	memset(key, 0, sizeof key);
	return wait_after(told);
}

/* Ends with status 1 where a call is refused. */
static int again(call_t call)
{
	unsigned int told = call();

	alarm(60);
	if (is_said(told))
		while (told == PIKHSEN_OK)
			told = call();
	return 1;
}

/*
 * Distances, in bytes below the frame of painted(). The first 1,024 are left out: there are the frames between it and
 * what wipes the stack, and those of the two functions below. They read and write where no frame is, at addresses that
 * are numbers to the compiler, of which it can assume nothing.
 */
enum { NEAR = 1024, WIPED = 32000, REACHED = 34816, FAR = 49152, PAINT = 0xA5 };

static NOINLINE void paint(size_t frame)
{
	size_t at;

	for (at = frame - FAR; at < frame - NEAR; ++at)
		*(volatile unsigned char *)at = PAINT;
}

/* How many of the bytes from `from` to `to` are not `byte`. */
static NOINLINE int others(size_t from, size_t to, unsigned char byte)
{
	int found = 0;

	for (; from < to; ++from)
		found += *(volatile unsigned char *)from != byte;
	return found;
}

/*
 * The library wipes 32 KiB of the stack after a call, and so all that the call used must be in these 32 KiB. Zeros are
 * wanted in their place, and deeper the paint, untouched. Between the two is what the wiping needs for itself.
 */
static NOINLINE void painted(call_t call)
{
	const size_t frame = (size_t)__builtin_frame_address(0);
	unsigned int told;
	int not_wiped, touched;

	paint(frame);
	told = call();
	not_wiped = others(frame - WIPED, frame - NEAR, 0);
	touched = others(frame - FAR, frame - REACHED, PAINT);
	printf("told %u, not wiped %d, touched deeper %d\n", told, not_wiped, touched);
}

static void look_at_freed(call_t call)
{
	const long before = live;
	unsigned int told;

	asked = not_zero = 0;
	told = call();
	printf("told %u, asked for %lu, not freed %ld, not zero %lu\n", told, (unsigned long)asked, live - before,
	    (unsigned long)not_zero);
}

enum { REGISTERS = 32, WIDTH = 64 };

static unsigned char registers[REGISTERS][WIDTH];

#define FIRST "0, 1, 2, 3, 4, 5, 6, 7, 8, 9, 10, 11, 12, 13, 14, 15"
#define OTHER "16, 17, 18, 19, 20, 21, 22, 23, 24, 25, 26, 27, 28, 29, 30, 31"

/* An instruction for each register of these numbers, which stand in the place of its \n. */
#define EACH(numbers, instruction) ".irp n, " numbers "\n" instruction "\n.endr"

/* Between the call and the stores no register may be used for anything else: so there is a function for each kind. */
#define CALL_WITH(kind, numbers, clear, store)                                                                        \
	static NOINLINE unsigned int call_with_##kind(call_t call)                                                        \
	{                                                                                                                 \
		unsigned int told;                                                                                            \
                                                                                                                      \
		__asm__ volatile(EACH(numbers, clear) : : : "memory");                                                        \
		told = call();                                                                                                \
		__asm__ volatile(EACH(numbers, store) : : "r"(registers) : "memory");                                         \
		return told;                                                                                                  \
	}

CALL_WITH(xmm, FIRST, "pxor %%xmm\\n, %%xmm\\n", "movdqu %%xmm\\n, 64 * \\n(%0)")
CALL_WITH(ymm, FIRST, "vpxor %%ymm\\n, %%ymm\\n, %%ymm\\n", "vmovdqu %%ymm\\n, 64 * \\n(%0)")
CALL_WITH(zmm, FIRST ", " OTHER, "vpxorq %%zmm\\n, %%zmm\\n, %%zmm\\n", "vmovdqu64 %%zmm\\n, 64 * \\n(%0)")

static unsigned int leave_key_in_three(void)
{
	unsigned int told = derive();

	__asm__ volatile("movdqu %0, %%xmm3" : : "m"(key) : "xmm3");
	return told;
}

static void look_at_registers(call_t call)
{
	static const unsigned char zeros[WIDTH];
	unsigned int told, number;

	told = (__builtin_cpu_supports("avx512f") ? call_with_zmm : __builtin_cpu_supports("avx") ? call_with_ymm
	    : call_with_xmm)(call);
	printf("told %u, not zero:", told);
	for (number = 0; number < REGISTERS; ++number)
		if (memcmp(registers[number], zeros, WIDTH) != 0)
			printf(" %u", number);
	printf("\n");
}

int main(int count, char **words)
{
	const char *what = words[1];
	void (*look)(call_t);
	call_t call;
	size_t at;

	memset(salt, 7, sizeof salt);
	if (count == 3)
		return again(call_of(words[2]));
	look = strcmp(what, "painted") == 0 ? painted : strcmp(what, "freed") == 0 ? look_at_freed
	    : strcmp(what, "registers") == 0 ? look_at_registers : NULL;
	if (look == NULL)
		return wait_after_call(what);
	for (at = 0; at < sizeof calls / sizeof calls[0]; ++at) {
		call = calls[at].call;
		if (calls[at].before != NULL && calls[at].before() != PIKHSEN_OK)
			return 1;
		least = call == encode || call == verify || call == encode_keyed || call == verify_keyed ? 1024 : 1;
		printf("%s: ", calls[at].name);
		look(call);
	}
	return 0;
}
