/*
 * The three functions in C of python-scrypt over pikhsen.h. What they take for granted of a processor, that it does so
 * many cores of Salsa20/8 a second, stands in place of a measurement. For tests/library/clients.py alone.
 */
#include <pikhsen.h>
#include <stdint.h>
#include <sys/random.h>
#include <unistd.h>

/* The numbers of python-scrypt's list of messages. */
enum { WORKED = 0, NO_KEY = 3, NO_SALT = 4, NO_MEMORY = 6, NO_FILE, NO_FORMAT, TOO_BIG, TOO_SLOW, WRONG };

static const double cores_in_a_second = 1 << 23;

static int told(unsigned int status)
{
	switch (status) {
	case PIKHSEN_OK: return WORKED;
	case PIKHSEN_OUT_OF_MEMORY: return NO_MEMORY;
	case PIKHSEN_MEMORY_LIMIT: return TOO_BIG;
	case PIKHSEN_WORK_LIMIT: return TOO_SLOW;
	case PIKHSEN_WRONG_PASSPHRASE: return WRONG;
	case PIKHSEN_FORMAT_VERSION: return NO_FORMAT;
	case PIKHSEN_MAGIC: case PIKHSEN_TOO_SHORT: case PIKHSEN_CHECKSUM: case PIKHSEN_FILE_COSTS: case PIKHSEN_DAMAGED:
		return NO_FILE;
	default: return NO_KEY;
	}
}

/* The part of the memory that is there, at most maxmem where that is not 0, and at least 1 MiB. */
static pikhsen_u64 memory(size_t maxmem, double part)
{
	double all = (double)sysconf(_SC_PHYS_PAGES) * (double)sysconf(_SC_PAGESIZE);
	pikhsen_u64 most = (pikhsen_u64)(all * (part > 0 && part < 0.5 ? part : 0.5));

	most = maxmem && maxmem < most ? maxmem : most;
	return most < 1 << 20 ? 1 << 20 : most;
}

static pikhsen_u64 work(double seconds)
{
	double cores = seconds * cores_in_a_second;

	return cores < 1 << 15 ? 1 << 15 : (pikhsen_u64)cores;
}

/* The greatest N that both limits allow, with r = 8 and p = 1. */
int exp_scryptenc_buf(const uint8_t *text, size_t text_len, uint8_t *out, const uint8_t *passphrase,
    size_t passphrase_len, size_t maxmem, double part, double seconds, int verbose)
{
	pikhsen_u64 bytes = memory(maxmem, part), cores = work(seconds);
	unsigned char salt[32];
	unsigned int log_n = 1;

	(void)verbose;
	while (1024ul << (log_n + 1) <= bytes && 32ul << (log_n + 1) <= cores)
		log_n += 1;
	if (getrandom(salt, sizeof salt, 0) != sizeof salt)
		return NO_SALT;
	return told(pikhsen_scrypt_encrypt((const char *)passphrase, passphrase_len, salt, sizeof salt, log_n, 8, 1, 1,
	    bytes, cores, text, text_len, out, text_len + PIKHSEN_FILE_OVERHEAD));
}

int exp_scryptdec_buf(const uint8_t *file, size_t file_len, uint8_t *out, size_t *out_len, const uint8_t *passphrase,
    size_t passphrase_len, size_t maxmem, double part, double seconds, int verbose, int force)
{
	(void)verbose, (void)force;
	return told(pikhsen_scrypt_decrypt((const char *)passphrase, passphrase_len, 1, memory(maxmem, part),
	    work(seconds), file, file_len, out, file_len, out_len));
}

int exp_crypto_scrypt(const uint8_t *password, size_t password_len, const uint8_t *salt, size_t salt_len, uint64_t n,
    uint32_t r, uint32_t p, uint8_t *out, size_t out_len)
{
	unsigned int log_n = 0;

	while (log_n < 63 && 1ul << log_n != n)
		log_n += 1;
	return told(pikhsen_scrypt((const char *)password, password_len, salt, salt_len, log_n, r, p, 1, UINT64_MAX,
	    UINT64_MAX, out, out_len));
}
