/* Enrols a password, and lets in whoever knows it. */
#include <pikhsen.h>
#include <stdio.h>
#include <string.h>
#include <sys/random.h>

/* The text to store for a new account, unless the password is empty: 64 MiB, 3 passes, 4 lanes, which RFC 9106
 * recommends second. */
static int enrol(const char *password, char *text, size_t room, size_t *len)
{
	unsigned char salt[16];

	return *password != '\0' && getrandom(salt, sizeof salt, 0) == sizeof salt
	    && pikhsen_argon2_encoded(PIKHSEN_ARGON2ID, 0x13, 3, 65536, 4, password,
		   strlen(password), salt, sizeof salt, 32, 65536, 1 << 18, text, room, len) == PIKHSEN_OK;
}

/* At most 1 GiB and 2^23 block functions, whoever wrote the text. */
static const char *answer(const char *text, size_t len, const char *password)
{
	switch (pikhsen_argon2_verify(text, len, password, strlen(password), 1 << 20, 1 << 23)) {
	case PIKHSEN_OK:
		return "welcome";
	case PIKHSEN_MISMATCH:
		return "not you";
	case PIKHSEN_MEMORY_LIMIT:
	case PIKHSEN_WORK_LIMIT: /* the text asks for more */
		return "set a new password";
	default:
		return "try again later";
	}
}

int main(void)
{
	char text[PIKHSEN_ENCODED_ROOM(16, 32)];
	size_t len;

	if (!enrol("correct horse", text, sizeof text, &len))
		return 1;
	printf("%.30s..\n", text);
	puts(answer(text, len, "correct horse"));
	puts(answer(text, len, "battery staple"));
	return 0;
}
