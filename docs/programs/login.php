<?php
// Enrols a password, and lets in whoever knows it: php -d ffi.enable=1 login.php
$library = FFI::cdef('
    unsigned int pikhsen_argon2_encoded(unsigned int kind, unsigned int version, unsigned int passes,
        unsigned int memory_kib, unsigned int lanes, const char *password, size_t password_len, const char *salt,
        size_t salt_len, size_t tag_len, unsigned int max_kib, unsigned long max_ops, char *out, size_t out_len,
        size_t *text_len);
    unsigned int pikhsen_argon2_verify(const char *text, size_t text_len, const char *password, size_t password_len,
        unsigned int max_kib, unsigned long max_ops);
', 'libpikhsen.so.0');

// The text to store for a new account: 64 MiB, 3 passes, 4 lanes, which RFC 9106 recommends second.
function enrol(string $password): string
{
    global $library;
    if ($password === '') {
        throw new ValueError('no password');
    }
    [$room, $length] = [FFI::new('char[121]'), FFI::new('size_t')]; // PIKHSEN_ENCODED_ROOM(16, 32)
    $told = $library->pikhsen_argon2_encoded(2, 0x13, 3, 65536, 4, $password, strlen($password), random_bytes(16), 16,
        32, 65536, 1 << 18, $room, 121, FFI::addr($length));
    return $told === 0 ? FFI::string($room) : throw new RuntimeException("pikhsen.h: status $told");
}

// At most 1 GiB and 2^23 block functions, whoever wrote the text.
function answer(string $text, string $password): string
{
    global $library;
    return match ($library->pikhsen_argon2_verify($text, strlen($text), $password, strlen($password), 1 << 20, 1 << 23)) {
        0 => 'welcome',
        16 => 'not you',
        7, 8 => 'set a new password', // the text asks for more
        default => 'try again later',
    };
}

$text = enrol('correct horse');
echo substr($text, 0, 30), "..\n";
echo answer($text, 'correct horse'), "\n";
echo answer($text, 'battery staple'), "\n";
