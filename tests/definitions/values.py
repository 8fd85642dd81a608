"""What definitions come to: numbers, yes and no, and lists as Python's own; cases and records; and functions."""


class Case(tuple):
    """A case of a type: its name, and what it holds."""

    def __repr__(self):
        return self[0] if len(self) == 1 else f"({' '.join(map(shown, self))})"


class Record(dict):
    """A record: its fields by their names."""

    def __hash__(self):
        return hash(tuple(sorted(self.items(), key=lambda it: it[0])))

    def __repr__(self):
        return f"record {{ {'; '.join(f'{name} = {shown(it)}' for name, it in self.items())} }}"


class Function:
    """A function that waits for so many arguments, and those that it has."""

    def __init__(self, count, call, given=()):
        self.count, self.call, self.given = count, call, given

    def __call__(self, *more):
        given = self.given + more
        if len(given) < self.count:
            return Function(self.count, self.call, given)
        return applied(self.call(*given[: self.count]), *given[self.count:])


def applied(value, *arguments):
    """A function with these arguments, or a case that holds them, too."""
    return Case(value + arguments) if isinstance(value, Case) else value(*arguments) if arguments else value


def some(value):
    return Case(("Some", value))


def ok(value):
    return Case(("Ok", value))


def error(value):
    return Case(("Err", value))


NONE = Case(("None",))


def shown(value):
    """A value as a definition would write it: a list of bytes as a text, or in hexadecimal where it is none."""
    if isinstance(value, tuple) and not isinstance(value, Case):
        if value and all(isinstance(it, int) and not isinstance(it, bool) and it < 256 for it in value):
            text = bytes(value)
            return f'"{text.decode()}"' if all(32 <= it < 127 for it in value) else f"0x{text.hex()}"
        return f"[{', '.join(map(shown, value))}]"
    return str(value).lower() if isinstance(value, bool) else str(value)
