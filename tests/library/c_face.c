/*
 * Calls libpikhsen from C, for tests/library/c_face.py, which gives it a stack of 64 KiB: the first vectors, a file
 * that is damaged, and, where REFUSE is defined, each request for memory refused in turn. Ends with status 0 where all
 * is right, and else names the line.
 */
#include <stdio.h>
#include <stdlib.h>
#include <string.h>

#include "pikhsen.h"
#include "refusing.h"

#define WANT(holds) ((holds) ? (void)0 : (fprintf(stderr, "%s:%d: %s\n", __FILE__, __LINE__, #holds), exit(1)))
#define TOLD(status, call) WANT((call) == PIKHSEN_##status)

static const char password[] = "password", somesalt[] = "somesalt", none[] = "";

/* printf password | argon2 somesalt -d -t 1 -k 8 -e, by the reference program */
static const char known[] =
    "$argon2d$v=19$m=8,t=1,p=1$c29tZXNhbHQ$xRnmA6xgPsGutbcexEpheePzl1sUwMl+ORTHnmNj4Xg";
#define KNOWN_LEN (sizeof known - 1)
#define KNOWN known, KNOWN_LEN

/* RFC 9106, 5.3, its salt and tag by base64(1): with a secret of 8 bytes 3, and data of 12 bytes 4 */
static const char known_keyed[] =
    "$argon2id$v=19$m=32,t=3,p=4$AgICAgICAgICAgICAgICAg$DWQN9Y14dmwIwDejSotTydAe8EUtdbZetSUg6WsB5lk";
static char ones[32];
static unsigned char twos[16], threes[8], fours[12];
static const unsigned char zeros[128 + 5];

/* Arguments that belong together: what is hashed, the costs of a key and of a file, and limits that refuse none. */
#define PASSWORD password, 8
#define ENCODED encoded, sizeof encoded, &len
#define KEYED keyed, sizeof keyed, &len
#define FILE_AND_TEXT file, sizeof file, text, sizeof text, &len
#define SALT somesalt, 8
#define EMPTY none, 0
#define NOTHING NULL, 0
#define TOO_LONG none, 1ul << 32
#define ARGON2D PIKHSEN_ARGON2D, 0x13, 1, 8, 1
#define RFC_9106 PIKHSEN_ARGON2ID, 0x13, 3, 32, 4, ones, 32, twos, 16
#define SECRET threes, 8
#define DATA fours, 12
#define FILE_SALT zeros, 32
#define KEY 4, 1, 1
#define COSTS 4, 3, 2
#define WIDE 1 << 20, 1 << 20

static char keyed[PIKHSEN_ENCODED_ROOM(16, 32)], encoded[PIKHSEN_ENCODED_ROOM(8, 32)];
static unsigned char file[128 + 5], text[128 + 5], place[128 + 5];
static struct pikhsen_scrypt_costs costs;
static struct pikhsen_argon2_settings settings;
static unsigned int needs;
static size_t len;

/* Pieces of one size make the file that pikhsen_scrypt_encrypt makes, and give its text again. */
enum { LONGEST = 1000103 };
static unsigned char long_text[LONGEST], whole[LONGEST + 128], pieces[LONGEST + 128], released[LONGEST + 64];

static unsigned int in_pieces(size_t size, size_t length)
{
	pikhsen_stream stream = PIKHSEN_STREAM_NEW;
	const size_t rest = length + PIKHSEN_FILE_CODE;
	size_t at, piece, got = 0;
	unsigned int told;

	for (at = 0; at < length; ++at)
		long_text[at] = (unsigned char)(at * 7 + (at >> 8));
	told = pikhsen_scrypt_encrypt(PASSWORD, FILE_SALT, KEY, 1, WIDE, long_text, length, whole, length + 128);
	if (told != PIKHSEN_OK)
		return told;
	memcpy(pieces + 96, long_text, length);
	memset(released, 0, sizeof released);
	told = pikhsen_scrypt_encrypt_start(PASSWORD, FILE_SALT, KEY, 1, WIDE, &stream, pieces, PIKHSEN_FILE_HEAD);
	WANT(stream.runs == (told == PIKHSEN_OK));
	if (told != PIKHSEN_OK)
		return told;
	for (at = 0; at < length; at += size)
		TOLD(OK, pikhsen_scrypt_encrypt_feed(&stream, pieces + 96 + at, length - at < size ? length - at : size));
	TOLD(OK, pikhsen_scrypt_encrypt_finish(&stream, pieces + 96 + length, PIKHSEN_FILE_CODE));
	WANT(stream.runs == 0 && memcmp(pieces, whole, length + 128) == 0);
	told = pikhsen_scrypt_decrypt_start(PASSWORD, 1, WIDE, whole, PIKHSEN_FILE_HEAD, &stream);
	WANT(stream.runs == 2 * (told == PIKHSEN_OK));
	if (told != PIKHSEN_OK)
		return told;
	for (at = 0; at < rest; at += size, got += len) {
		piece = rest - at < size ? rest - at : size;
		TOLD(OK, pikhsen_scrypt_decrypt_feed(&stream, whole + 96 + at, piece, released + got, piece + 32, &len));
	}
	TOLD(OK, pikhsen_scrypt_decrypt_finish(&stream));
	WANT(stream.runs == 0 && got == length && memcmp(released, long_text, length) == 0);
	return PIKHSEN_OK;
}

static unsigned int one(int call, unsigned char *tag)
{
	unsigned int told;
	switch (call) {
	case 0: return pikhsen_argon2_hash(ARGON2D, PASSWORD, SALT, EMPTY, EMPTY, 8, 100, tag, 32);
	case 1: return pikhsen_argon2_encoded(ARGON2D, PASSWORD, SALT, 32, 8, 100, ENCODED);
	case 2: return pikhsen_argon2_verify(encoded, strlen(encoded), PASSWORD, 8, 100);
	case 3: return pikhsen_scrypt(EMPTY, EMPTY, KEY, 4, WIDE, tag, 32);
	case 4: return pikhsen_scrypt_encrypt(PASSWORD, FILE_SALT, COSTS, 1, WIDE, somesalt, 5, file, sizeof file);
	case 5: return pikhsen_scrypt_info(file, sizeof file, &costs);
	case 7:
		memcpy(place, somesalt, 5);
		told = pikhsen_scrypt_encrypt_in_place(PASSWORD, FILE_SALT, COSTS, 1, WIDE, place, sizeof place);
		WANT(told == PIKHSEN_OK || memcmp(place, somesalt, 5) == 0);
		return told;
	case 8: return pikhsen_argon2_settings(KNOWN, &settings);
	case 9: return pikhsen_argon2_needs_rehash(KNOWN, &settings, &needs);
	case 10: return pikhsen_argon2_encoded_keyed(RFC_9106, SECRET, DATA, 32, 32, 1000, KEYED);
	case 11: return pikhsen_argon2_verify_keyed(keyed, strlen(keyed), ones, 32, SECRET, DATA, 32, 1000);
	case 12: return in_pieces(2, 5);
	default: return pikhsen_scrypt_decrypt(PASSWORD, 1, WIDE, FILE_AND_TEXT);
	}
}

/* Refuses the first request of a call, and then, each time, one later. It frees all that it takes. */
static void refused_in_turn(int number, unsigned char *tag)
{
	const long taken = live;
	unsigned char before[32];
	unsigned int told;
	long requests = 0;

	memcpy(before, tag, 32);
	do {
		granted = requests++;
		len = 7;
		told = one(number, tag);
		granted = -1;
		WANT(live == taken);
		WANT(told == PIKHSEN_OK || (told == PIKHSEN_OUT_OF_MEMORY && memcmp(before, tag, 32) == 0));
		WANT(told == PIKHSEN_OK || (number != 1 && number != 6 && number != 10) || len == 0);
	} while (told != PIKHSEN_OK);
	/* the costs of a file take no memory */
	WANT(number == 5 || requests > 1 || !IS_COUNTED);
}

/* Limits that are enough, but for one that is too low by one: that of the memory, or that of the work. */
#define BELOW(memory, work) (memory) - !is_work, (work) - is_work

/* What the limits refuse must not take memory before: limits are there for texts and files of strangers. */
static void refused_by_limits(int is_work)
{
	const unsigned int told = is_work ? PIKHSEN_WORK_LIMIT : PIKHSEN_MEMORY_LIMIT;
	const size_t encoded_len = strlen(encoded), keyed_len = strlen(keyed);
	unsigned char tag[32];

	memcpy(place, somesalt, 8);
	asked = 0;
	/* KiB and block functions */
	WANT(pikhsen_argon2_hash(ARGON2D, PASSWORD, SALT, EMPTY, EMPTY, BELOW(8, 6), tag, 32) == told);
	WANT(pikhsen_argon2_encoded(ARGON2D, PASSWORD, SALT, 32, BELOW(8, 6), ENCODED) == told);
	WANT(pikhsen_argon2_encoded_keyed(RFC_9106, SECRET, DATA, 32, BELOW(32, 104), KEYED) == told);
	/* 128 * r * N bytes and 4 * r * p * N cores */
	WANT(pikhsen_scrypt(EMPTY, EMPTY, KEY, 1, BELOW(2048, 64), tag, 32) == told);
	WANT(pikhsen_scrypt_encrypt(PASSWORD, FILE_SALT, COSTS, 1, BELOW(6144, 384), somesalt, 5, file, 133) == told);
	WANT(pikhsen_scrypt_encrypt_in_place(PASSWORD, FILE_SALT, COSTS, 1, BELOW(6144, 384), place, 133) == told);
	WANT(pikhsen_scrypt_decrypt(PASSWORD, 1, BELOW(6144, 384), FILE_AND_TEXT) == told);
	WANT(asked == 0 && memcmp(place, somesalt, 8) == 0);
	/* a text's salt and tag are read before the limits are tested, and have fewer bytes than the text */
	WANT(pikhsen_argon2_verify(encoded, encoded_len, PASSWORD, BELOW(8, 6)) == told);
	WANT(pikhsen_argon2_verify_keyed(keyed, keyed_len, ones, 32, SECRET, DATA, BELOW(32, 104)) == told);
	WANT(asked < 2 * (encoded_len + keyed_len));
	WANT(one(0, tag) == PIKHSEN_OK && (asked >= 8192 || !IS_COUNTED));
}

/* Null with length 0, for all bytes that a function takes: it is refused, or not, as "" is. */
static void null_with_length_0(void)
{
	unsigned char tag[32], other[32];
	size_t made_len = 7;

	TOLD(OK, pikhsen_argon2_hash(ARGON2D, EMPTY, SALT, EMPTY, EMPTY, 8, 100, tag, 32));
	TOLD(OK, pikhsen_argon2_hash(ARGON2D, NOTHING, SALT, NOTHING, NOTHING, 8, 100, other, 32));
	WANT(memcmp(tag, other, 32) == 0);
	TOLD(SALT_LENGTH, pikhsen_argon2_hash(ARGON2D, PASSWORD, NOTHING, NOTHING, NOTHING, 8, 100, other, 32));
	TOLD(TAG_LENGTH, pikhsen_argon2_hash(ARGON2D, PASSWORD, SALT, NOTHING, NOTHING, 8, 100, NOTHING));
	TOLD(OK, pikhsen_argon2_encoded(ARGON2D, NOTHING, SALT, 32, 8, 100, ENCODED));
	TOLD(OK, pikhsen_argon2_verify(encoded, len, NOTHING, 8, 100));
	TOLD(OK, pikhsen_argon2_verify(encoded, len, EMPTY, 8, 100));
	TOLD(SALT_LENGTH, pikhsen_argon2_encoded(ARGON2D, PASSWORD, NOTHING, 32, 8, 100, ENCODED));
	TOLD(BUFFER, pikhsen_argon2_encoded(ARGON2D, PASSWORD, SALT, 32, 8, 100, NOTHING, &len));
	TOLD(NOT_ENCODED, pikhsen_argon2_verify(NOTHING, PASSWORD, 8, 100));
	TOLD(MISMATCH, pikhsen_argon2_verify(KNOWN, NOTHING, 8, 100));
	TOLD(OK, pikhsen_argon2_verify_keyed(KNOWN, PASSWORD, NOTHING, NOTHING, 8, 6));
	TOLD(NOT_ENCODED, pikhsen_argon2_verify_keyed(NOTHING, PASSWORD, NOTHING, NOTHING, 8, 6));
	TOLD(OK, pikhsen_argon2_encoded_keyed(ARGON2D, PASSWORD, SALT, NOTHING, NOTHING, 32, 8, 6, ENCODED));
	WANT(len == KNOWN_LEN && strcmp(encoded, known) == 0);
	TOLD(BUFFER, pikhsen_argon2_encoded_keyed(ARGON2D, PASSWORD, SALT, NOTHING, NOTHING, 32, 8, 6, NOTHING, &len));
	WANT(len == 0);
	TOLD(NOT_ENCODED, pikhsen_argon2_settings(NOTHING, &settings));
	TOLD(NOT_ENCODED, pikhsen_argon2_needs_rehash(NOTHING, &settings, &needs));
	WANT(pikhsen_message(0, NOTHING, &made_len) == PIKHSEN_BUFFER && made_len == 0);
}

/* The same for keys and files. */
static void null_for_scrypt(void)
{
	unsigned char tag[32], other[32], empty[128], made[128];
	size_t made_len = 7;

	TOLD(OK, pikhsen_scrypt(EMPTY, EMPTY, KEY, 1, WIDE, tag, 32));
	TOLD(OK, pikhsen_scrypt(NOTHING, NOTHING, KEY, 1, WIDE, other, 32));
	WANT(memcmp(tag, other, 32) == 0);
	TOLD(OK, pikhsen_scrypt(NOTHING, NOTHING, KEY, 1, WIDE, NOTHING));
	TOLD(TOO_SHORT, pikhsen_scrypt_info(NOTHING, &costs));
	TOLD(OK, pikhsen_scrypt_encrypt(EMPTY, FILE_SALT, KEY, 1, WIDE, EMPTY, empty, 128));
	TOLD(OK, pikhsen_scrypt_encrypt(NOTHING, FILE_SALT, KEY, 1, WIDE, NOTHING, made, 128));
	WANT(memcmp(empty, made, 128) == 0);
	TOLD(OK, pikhsen_scrypt_encrypt_in_place(NOTHING, FILE_SALT, KEY, 1, WIDE, made, 128));
	WANT(memcmp(empty, made, 128) == 0);
	TOLD(FILE_SALT, pikhsen_scrypt_encrypt(NOTHING, NOTHING, KEY, 1, WIDE, NOTHING, made, 128));
	TOLD(BUFFER, pikhsen_scrypt_encrypt(NOTHING, FILE_SALT, KEY, 1, WIDE, NOTHING, NOTHING));
	TOLD(BUFFER, pikhsen_scrypt_encrypt_in_place(NOTHING, FILE_SALT, KEY, 1, WIDE, NOTHING));
	TOLD(OK, pikhsen_scrypt_decrypt(NOTHING, 1, WIDE, empty, 128, made, 128, &made_len));
	WANT(made_len == 0);
	TOLD(TOO_SHORT, pikhsen_scrypt_decrypt(NOTHING, 1, WIDE, NOTHING, NOTHING, &made_len));
	TOLD(BUFFER, pikhsen_scrypt_decrypt(NOTHING, 1, WIDE, empty, 128, NOTHING, &made_len));
}

/* Each call that does not go with what a stream does is refused. */
static void wrong_calls(pikhsen_stream *stream)
{
	const unsigned char runs = stream->runs;
	unsigned char out[64], head[96];

	if (runs != 0) {
		TOLD(STREAM, pikhsen_scrypt_encrypt_start(PASSWORD, FILE_SALT, COSTS, 1, WIDE, stream, head, 96));
		TOLD(STREAM, pikhsen_scrypt_decrypt_start(PASSWORD, 1, WIDE, file, 96, stream));
	}
	if (runs != 1) {
		TOLD(STREAM, pikhsen_scrypt_encrypt_feed(stream, out, 5));
		TOLD(STREAM, pikhsen_scrypt_encrypt_finish(stream, out, 32));
	}
	if (runs != 2) {
		TOLD(STREAM, pikhsen_scrypt_decrypt_feed(stream, file + 96, 5, out, 64, &len));
		TOLD(STREAM, pikhsen_scrypt_decrypt_finish(stream));
	}
	WANT(stream->runs == runs);
}

/* After calls that are refused a stream goes on as if there had been none; and it is freed in each state. */
static void streams(void)
{
	pikhsen_stream stream = PIKHSEN_STREAM_NEW;
	unsigned char out[64], head[96], code[32];
	long before = live;

	wrong_calls(&stream);
	TOLD(FILE_SALT, pikhsen_scrypt_encrypt_start(PASSWORD, zeros, 31, COSTS, 1, WIDE, &stream, head, 96));
	TOLD(BUFFER, pikhsen_scrypt_encrypt_start(PASSWORD, FILE_SALT, COSTS, 1, WIDE, &stream, head, 95));
	TOLD(TOO_SHORT, pikhsen_scrypt_decrypt_start(PASSWORD, 1, WIDE, file, 95, &stream));
	TOLD(WRONG_PASSPHRASE, pikhsen_scrypt_decrypt_start(SALT, 1, WIDE, file, 96, &stream));
	WANT(stream.runs == 0 && live == before);

	TOLD(OK, pikhsen_scrypt_encrypt_start(PASSWORD, FILE_SALT, COSTS, 1, WIDE, &stream, head, 96));
	wrong_calls(&stream);
	TOLD(BUFFER, pikhsen_scrypt_encrypt_finish(&stream, code, 31));
	memcpy(out, somesalt, 5);
	TOLD(OK, pikhsen_scrypt_encrypt_feed(&stream, out, 5));
	TOLD(OK, pikhsen_scrypt_encrypt_finish(&stream, code, 32));
	WANT(memcmp(head, file, 96) == 0 && memcmp(out, file + 96, 5) == 0 && memcmp(code, file + 101, 32) == 0);

	TOLD(OK, pikhsen_scrypt_decrypt_start(PASSWORD, 1, WIDE, file, 96, &stream));
	wrong_calls(&stream);
	len = 7;
	TOLD(BUFFER, pikhsen_scrypt_decrypt_feed(&stream, file + 96, 37, out, 64, &len));
	WANT(len == 0);
	TOLD(OK, pikhsen_scrypt_decrypt_feed(&stream, file + 96, 32, out, 64, &len));
	TOLD(OK, pikhsen_scrypt_decrypt_feed(&stream, file + 128, 5, out, 37, &len));
	WANT(len == 5 && memcmp(out, somesalt, 5) == 0);
	TOLD(OK, pikhsen_scrypt_decrypt_finish(&stream));

	/* a file that is cut short */
	TOLD(OK, pikhsen_scrypt_decrypt_start(PASSWORD, 1, WIDE, file, 96, &stream));
	TOLD(DAMAGED, pikhsen_scrypt_decrypt_finish(&stream));
	wrong_calls(&stream);
	WANT(live == before);

	TOLD(OK, pikhsen_scrypt_decrypt_start(PASSWORD, 1, WIDE, file, 96, &stream));
	TOLD(OK, pikhsen_stream_free(&stream));
	TOLD(OK, pikhsen_stream_free(&stream));
	TOLD(OK, pikhsen_scrypt_encrypt_start(PASSWORD, FILE_SALT, COSTS, 1, WIDE, &stream, head, 96));
	TOLD(OK, pikhsen_stream_free(&stream));
	/* a struct that was never set is refused, not used */
	memset(&stream, 0xA5, sizeof stream);
	wrong_calls(&stream);
	TOLD(OK, pikhsen_stream_free(&stream));
	WANT(stream.runs == 0 && live == before);
}

/* What is told of a text, of which each setting is another number; and of one out of range, which changes nothing. */
static void settings_of_texts(void)
{
	static const char inside[] = "$argon2i$v=19$m=65536,t=2,p=4$c29tZXNhbHQ$RdescudvJCsgt3ub+b+dWRWJTmaaJObG";
	static const char outside[] = "$argon2d$m=4294967296,t=1,p=1$c29tZXNhbHQ$xRnmA6xg";
	struct pikhsen_argon2_settings before;

	TOLD(OK, pikhsen_argon2_settings(inside, sizeof inside - 1, &settings));
	WANT(settings.kind == PIKHSEN_ARGON2I && settings.version == 0x13 && settings.passes == 2);
	WANT(settings.memory_kib == 65536 && settings.lanes == 4 && settings.salt_len == 8 && settings.tag_len == 24);
	WANT(pikhsen_argon2_needs_rehash(inside, sizeof inside - 1, &settings, &needs) == PIKHSEN_OK && needs == 0);
	++settings.tag_len;
	WANT(pikhsen_argon2_needs_rehash(inside, sizeof inside - 1, &settings, &needs) == PIKHSEN_OK && needs == 1);
	before = settings;
	needs = 7;
	TOLD(TEXT_MEMORY, pikhsen_argon2_settings(outside, sizeof outside - 1, &settings));
	TOLD(TEXT_MEMORY, pikhsen_argon2_needs_rehash(outside, sizeof outside - 1, &settings, &needs));
	TOLD(OUT_OF_RANGE, pikhsen_argon2_verify(outside, sizeof outside - 1, PASSWORD, 8, 100));
	WANT(memcmp(&before, &settings, sizeof before) == 0 && needs == 7);
}

/* Each function with these inputs, of which one has 2^32 bytes, says which, before limits, and reads no byte of it. */
static void too_long(unsigned int told, size_t password_len, size_t secret_len, size_t data_len)
{
	unsigned char tag[32];

	WANT(pikhsen_argon2_hash(ARGON2D, none, password_len, SALT, none, secret_len, none, data_len, 7, 1, tag, 32) == told);
	len = 7;
	WANT(pikhsen_argon2_encoded_keyed(ARGON2D, none, password_len, SALT, none, secret_len, none, data_len, 32, 7, 1,
	    ENCODED) == told && len == 0);
	WANT(pikhsen_argon2_verify_keyed(KNOWN, none, password_len, none, secret_len, none, data_len, 7, 1) == told);
}

/* The first fault is told: of the text or the salt, of the password, of secret and data. */
static void long_inputs(void)
{
	const size_t most = 1ul << 32;
	unsigned char tag[32];

	too_long(PIKHSEN_PASSWORD_LENGTH, most, most, 0);
	too_long(PIKHSEN_INPUT_LENGTH, 0, most, 0);
	too_long(PIKHSEN_INPUT_LENGTH, 0, 0, most);
	len = 7;
	TOLD(PASSWORD_LENGTH, pikhsen_argon2_encoded(ARGON2D, TOO_LONG, SALT, 32, 7, 1, ENCODED));
	WANT(len == 0);
	TOLD(PASSWORD_LENGTH, pikhsen_argon2_verify(KNOWN, TOO_LONG, 7, 1));
	TOLD(SALT_LENGTH, pikhsen_argon2_hash(ARGON2D, TOO_LONG, somesalt, 7, EMPTY, EMPTY, 8, 10, tag, 32));
	TOLD(NOT_ENCODED, pikhsen_argon2_verify(NOTHING, TOO_LONG, 7, 1));
}

int main(void)
{
	const long taken = live;
	unsigned char tag[32];
	int i;

	WANT(pikhsen_version() == PIKHSEN_VERSION);
	memset(tag, 1, sizeof tag);
	memset(text, 1, sizeof text);
	memset(ones, 1, sizeof ones);
	memset(twos, 2, sizeof twos);
	memset(threes, 3, sizeof threes);
	memset(fours, 4, sizeof fours);
	/* from 7 to 12, and then from 0 to 6, of which each needs what those before it made */
	for (i = 7; i < 20; ++i)
		refused_in_turn(i % 13, tag);
	/* RFC 7914, section 12, the first vector's last derivation has these first bytes; keep is 4 */
	WANT(tag[0] == 0x77 && tag[1] == 0xd6 && tag[2] == 0x57 && tag[3] == 0x62);
	WANT(strcmp(encoded, known) == 0 && strcmp(keyed, known_keyed) == 0);
	WANT(len == 5 && memcmp(text, somesalt, 5) == 0);
	WANT(memcmp(text + 5, zeros, sizeof text - 5) == 0);
	WANT(costs.log_n == 4 && costs.r == 3 && costs.p == 2);
	WANT(memcmp(place, file, sizeof file) == 0);
	TOLD(OK, in_pieces(1, 300));
	TOLD(OK, in_pieces(4095, 20000));
	TOLD(OK, in_pieces(4096, 20000));
	TOLD(OK, in_pieces(65536, 140000));
	TOLD(OK, in_pieces(1000003, LONGEST));
	streams();
	long_inputs();
	settings_of_texts();
	refused_by_limits(0);
	refused_by_limits(1);
	file[100] ^= 1;
	memset(text, 1, sizeof text);
	TOLD(DAMAGED, one(6, tag));
	WANT(len == 0 && live == taken && memcmp(text, zeros, sizeof text) == 0);
	null_with_length_0();
	null_for_scrypt();
	return 0;
}
