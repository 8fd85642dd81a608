"""Django's Argon2 by the module pikhsen: the same texts. PASSWORD_HASHERS = ["hasher.PikhsenHasher", ..]"""
import base64

import pikhsen
from django.contrib.auth.hashers import Argon2PasswordHasher


class PikhsenHasher(Argon2PasswordHasher):
    library = None  # argon2-cffi is not needed

    @property
    def settings(self):
        return {"passes": self.time_cost, "memory_kib": self.memory_cost, "lanes": self.parallelism}

    def encode(self, password, salt):
        return self.algorithm + pikhsen.encode(password.encode(), salt=salt.encode(), **self.settings)

    def decode(self, encoded):
        text = encoded[len(self.algorithm):]
        of, (salt, tag) = pikhsen.settings(text), text.split("$")[-2:]
        return {"algorithm": self.algorithm, "hash": tag, "memory_cost": of.memory_kib, "parallelism": of.lanes,
                "salt": base64.b64decode(salt + "=" * (-len(salt) % 4)).decode("latin1"), "time_cost": of.passes,
                "variety": f"argon2{of.kind.name.lower()}", "version": of.version, "params": of}

    def verify(self, password, encoded):
        # at most 1 GiB and 2^23 block functions, whoever wrote the text
        return pikhsen.verify(encoded[len(self.algorithm):], password.encode(), max_kib=1 << 20, max_ops=1 << 23)

    def must_update(self, encoded):
        # Django's salts have 22 characters
        return pikhsen.needs_rehash(encoded[len(self.algorithm):], salt_len=22, **self.settings)
