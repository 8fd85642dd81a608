import pikhsen


def enrol(password):
    if not password:
        raise ValueError("an empty password")
    return pikhsen.encode(password)


def answer(stored, password):
    try:
        # at most 1 GiB and 2^23 block functions, whoever wrote the text
        return "welcome" if pikhsen.verify(stored, password, max_kib=1 << 20, max_ops=1 << 23) else "not you"
    except pikhsen.LimitExceeded:
        return "set a new password"


stored = enrol(b"correct horse")
print(stored[:30] + "..")
for password in (b"correct horse", b"battery staple"):
    print(answer(stored, password))

letter = pikhsen.encrypt(b"Dear Ada", b"passphrase")
print(pikhsen.info(letter), pikhsen.decrypt(letter, b"passphrase"))
try:
    pikhsen.decrypt(letter[:-1], b"passphrase")
except pikhsen.Damaged as refused:
    print(refused)
