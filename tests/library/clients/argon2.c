/*
 * libargon2.so.1 of compat/, as the reference implementation answers where its own test program looks: which value of a
 * text is out of range, and the words of one sentence. For tests/library/clients.py alone.
 */
#define argon2_verify verify_of_compat
#define argon2_error_message error_message_of_compat
#include "../../../compat/libargon2/libargon2.c"
#undef argon2_verify
#undef argon2_error_message

int argon2_verify(const char *text, const void *password, size_t password_len, argon2_type type)
{
	struct pikhsen_argon2_settings settings;

	if (text && pikhsen_argon2_settings(text, strlen(text), &settings) == PIKHSEN_TEXT_SALT_LENGTH)
		return ARGON2_SALT_TOO_SHORT;
	return verify_of_compat(text, password, password_len, type);
}

const char *argon2_error_message(int answer)
{
	return answer == ARGON2_DECODING_FAIL ? "Decoding failed" : error_message_of_compat(answer);
}
