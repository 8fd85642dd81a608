"""Definitions of specs/ as programs: read, and translated into Python. What of the language they use is read, and no more: clauses
over patterns, numbers, texts, records, `λ`, `let`, `if`, `do`, and operators. A definition that is a statement has no value.

    Definitions().value_in(module, "scrypt_key")    what a text comes to, by the names that a file imports
"""
import pathlib
import re
import shutil
import subprocess

import kit
from specs import BIND, CRATES, imports
from values import Case, Function, Record, applied

# how strongly an operator binds, and on which side it goes on
OPERATORS = {
    "→": (1, "r"), "⊎": (1, "r"), "×": (2, "r"), "≡": (4, ""), ">>=": (10, "l"), "||": (30, "l"), "&&": (35, "l"), "==": (40, ""),
    "<": (50, ""), "≤": (50, ""), "+": (65, "l"), "-": (65, "l"), "++": (65, "r"), "∷": (67, "r"), "*": (70, "l"), "/": (70, "l"),
    "%": (70, "l"), "^": (75, "r"),
}
OF_PYTHON = {"&&": "and", "||": "or", "+": "+", "*": "*", "==": "==", "++": "+"}
TOKEN = re.compile(r'"(?:[^"\\]|\\.)*"|\[\]|[(){},;]|λ|\.|0x[0-9A-Fa-f_]+|\d[\d_]*|[^\s(){},;.\[\]"]+')
NUMBER = re.compile(r"0x|\d")
BEGUN = re.compile(r"(?:(?:pub|abbrev|unfoldable|opaque)\s+)*(\S+)(?: \{[^}]*\})* : ")
ENDS = {")", "}", ",", ";", "=", "then", "else", "in", "←", ":", ".", "{", "if"}


class Unreadable(Exception):
    """What is not read, or has no value."""


class Unknown:
    """A name that is no definition with a value, and no word that is known: it is missed where it is asked for."""

    def __init__(self, name):
        self.name = name

    def __call__(self, *_):
        raise Unreadable(f"{self.name} is no definition with a value, and no word that is known")


class Token(str):
    """A word, with its line and column, and whether nothing stands before it."""


def tokens(text):
    for number, line in enumerate(text.split("\n")):
        at = 0
        while at < len(line):
            if line[at].isspace():
                at += 1
                continue
            if line.startswith("--", at) and (at == 0 or line[at - 1].isspace()):
                break
            found = TOKEN.match(line, at)
            if not found:
                raise Unreadable(f"the word at {line[at:at + 20]!r}")
            token = Token(found[0])
            token.line, token.column, token.is_apart = number, at, at == 0 or line[at - 1].isspace()
            yield token
            at = found.end()


class Reader:
    """Expressions of a text, as tuples that begin with their form."""

    def __init__(self, words):
        self.words, self.at, self.blocks = [*words], 0, []

    def peek(self, ahead=0):
        return self.words[self.at + ahead] if self.at + ahead < len(self.words) else None

    def next(self, expected=None):
        word = self.peek()
        if word is None or expected and word != expected:
            raise Unreadable(f"{expected or 'more'} at {' '.join(self.words[max(0, self.at - 6):self.at + 4])}")
        self.at += 1
        return word

    def within(self, block, read):
        """What is read where a line of `do` ends with its block, or, with no block, anywhere."""
        self.blocks.append(block)
        found = read()
        self.blocks.pop()
        return found

    def has_ended(self):
        word, block = self.peek(), self.blocks[-1] if self.blocks else None
        return word is None or block is not None and word.line > block.line and word.column <= block.column

    def skip_to(self, end):
        while self.peek() != end:
            self.next()

    def whole(self):
        found = self.expression()
        if self.peek() is not None:
            raise Unreadable(f"the rest {' '.join(self.words[self.at:self.at + 6])}")
        return found

    def patterns(self):
        found = []
        while self.peek() is not None:
            found.append(self.atom())
        return found

    def expression(self, least=-1):
        left = self.prefixed()
        while not self.has_ended() and self.peek() in OPERATORS and OPERATORS[self.peek()][0] >= least:
            operator = self.next()
            strength, side = OPERATORS[operator]
            left = "operator", operator, left, self.expression(strength if side == "r" else strength + 1)
        return left

    def prefixed(self):
        read = {"λ": self.function, "let": self.let, "if": self.choice, "do": self.block}.get(self.peek())
        if read is None:
            return self.application()
        self.next()
        return read()

    def function(self):
        names = []
        while self.peek() != ".":
            if self.peek() == "(":
                self.next()
                names.append(self.next())
                self.skip_to(")")
            else:
                names.append(self.peek())
            self.next()
        self.next(".")
        return "function", names, self.expression()

    def let(self):
        name = self.next()
        self.skip_to("=")
        self.next("=")
        value = self.within(None, self.expression)
        self.next("in")
        return "let", name, value, self.expression()

    def choice(self):
        test = self.within(None, self.expression)
        self.next("then")
        first = self.within(None, self.expression)
        self.next("else")
        return "if", test, first, self.expression(5)

    def block(self):
        """The steps of a `do`: each but the last hands a value on, under a name or none."""
        steps, column = [], self.peek().column
        while not self.has_ended() and self.peek().column == column:
            name, start = "_", self.peek()
            if self.peek(1) == "←":
                name = self.next()
                self.next("←")
            steps.append((name, self.within(start, self.expression)))
        (_, found), others = steps[-1], steps[:-1]
        for name, step in reversed(others):
            found = "operator", ">>=", step, ("function", [name], found)
        return found

    def application(self):
        head, arguments = self.atom(), []
        if self.peek() == "{" and head != ("name", "record"):  # a type
            self.skip_to("}")
            self.next()
        while not self.has_ended() and self.peek() not in OPERATORS and self.peek() not in ENDS:
            arguments.append(self.prefixed() if self.peek() == "λ" else self.atom())
        return ("apply", head, arguments) if arguments else head

    def atom(self):
        word = self.next()
        if word == "(":
            found = self.within(None, self.parts)
        elif word == "record":
            base = None if self.peek() == "{" else self.atom()
            found = self.within(None, lambda: ("record", base, self.fields()))
        elif word[0] == '"':
            found = "text", tuple(word[1:-1].encode().decode("unicode_escape").encode() if "\\" in word else word[1:-1].encode())
        elif NUMBER.match(word):
            found = "number", int(word.replace("_", ""), 0)
        elif word in OPERATORS or word in ENDS:
            raise Unreadable(f"a value, and not {word}")
        else:
            found = "name", str(word)
        while self.peek() == "." and not self.peek().is_apart and self.peek(1) is not None and not self.peek(1).is_apart:
            self.next()
            found = "field", found, str(self.next())
        return found

    def parts(self):
        found = [self.expression()]
        while self.peek() == ",":
            self.next()
            found += [] if self.peek() == ")" else [self.expression()]
        if self.peek() == ":":  # a type
            self.skip_to(")")
        self.next(")")
        return found[0] if len(found) == 1 else ("pair", found)

    def fields(self):
        found = []
        self.next("{")
        while self.peek() != "}":
            name = self.next()
            self.next("=")
            found.append((str(name), self.expression()))
            if self.peek() == ";":
                self.next()
        self.next("}")
        return found


class Module:
    """A file of specs/: what it imports, its cases, the clauses of each name and what its type says, and those parts of types
    and records that stand together."""

    def __init__(self, name, text):
        self.name, self.text = name, text
        self.imports = imports(text)
        self.clauses, self.cases, self.kept, self.unread, self.types, self.together = {}, set(), set(), {}, {}, []
        for part in re.split(r"\n(?=[^\s})])", re.sub(r"(?m)^\s*--.*\n?", "", text)):
            self.take(part)

    def take(self, part):
        if re.match(r"(pub )?(use|mod) |infix|#", part) or not part.strip():
            return
        if of_type := re.match(r"(?:pub )?(data|record) ", part):
            parts = dict(re.findall(r"\n\s+(?:pub )?(\S+) : (.*)", part))
            self.together.append(parts)
            self.cases |= {*parts} if of_type[1] == "data" else set()
        elif begun := BEGUN.match(part):
            self.kept |= {begun[1]} if part.startswith("unfoldable") else set()
            self.types[begun[1]] = " ".join(part[begun.end():].split())
        else:
            self.take_clause(part)

    def take_clause(self, part):
        try:
            words, depth = [*tokens(part)], 0
            for end, word in enumerate(words):
                depth += (word in "({") - (word in ")}")
                if word == "=" and depth == 0:
                    break
            head, body = words[:end], words[end + 1:]
            name, patterns = head[0], head[1:]
            if ">>=" in head:
                name, patterns = BIND, [it for it in head if it != ">>="]
            found = Reader(patterns).patterns(), Reader(body).whole(), frozenset(self.cases)  # those that stand above it
            self.clauses.setdefault(str(name), []).append(found)
        except (Unreadable, IndexError) as fault:
            self.unread[re.match(r"\S*", part)[0]] = str(fault)


class Definition:
    """A name with its clauses, and what these come to once it is asked for. It keeps its values if it is unfoldable or takes no
    arguments."""

    def __init__(self, all_of_them, module, name):
        self.all, self.module, self.name = all_of_them, module, name
        self.count = len(module.clauses[name][0][0])
        self.is_kept = name in module.kept or not self.count
        self.uses = set()  # the definitions that its clauses name
        self.put(module.clauses[name])

    def put(self, clauses):
        self.clauses, self.call, self.values = clauses, None, {}

    def __call__(self, *arguments):
        self.all.steps -= 1
        if self.all.steps < 0:
            raise Unreadable(f"{self.name}: too many steps")
        if self.call is None:
            self.call = Translation(self.all, self.module, self).program()
        if not self.is_kept and not self.values:
            return self.call(*arguments)
        if arguments not in self.values:
            value = self.call(*arguments)
            if not self.is_kept:
                return value
            self.values[arguments] = value
        return self.values[arguments]


class Translation:
    """The expressions of a module in Python. A name of it is a variable there, or one of `known`."""

    def __init__(self, all_of_them, module, definition=None):
        self.all, self.module, self.cases, self.count, self.definition = all_of_them, module, module.cases, 0, definition
        self.known = {it.__name__: it for it in (Case, Record, Function, applied, Unreadable)} | {"asked": all_of_them.asked}

    def fresh(self):
        self.count += 1
        return f"v{self.count}"

    def program(self):
        """A definition as a function of its arguments, which notes what clauses are asked for."""
        definition = self.definition
        arguments = [self.fresh() for _ in range(definition.count)]
        lines = [f"def program({', '.join(arguments)}):"]
        for number, (patterns, value, self.cases) in enumerate(definition.clauses):
            tests, names, own = [], {}, []
            for argument, pattern in zip(arguments, patterns):
                self.match(pattern, argument, tests, own, names)
            lines.append(f"    if {' and '.join(tests) or 'True'}:")
            lines += [f"        {it}" for it in [*own, f"asked.add({(definition.module.name, definition.name, number)!r})"]]
            lines.append(f"        return {self.python(value, names)}")
        lines.append(f"    raise Unreadable({definition.name!r} + ' has no clause for these arguments')")
        exec(compile("\n".join(lines), f"<{definition.module.name}.{definition.name}>", "exec"), self.known)
        return self.known["program"]

    def match(self, pattern, at, tests, own, names):
        """What a value must meet to be of a pattern, and the names that it gives."""
        form, *parts = pattern
        if form == "field" or form == "name" and (parts[0] in self.cases or self.all.is_case(self.module, parts[0])):
            tests.append(f"{at}[0] == {parts[-1]!r}")
        elif form == "name" and parts[0] in ("[]", "zero", "true", "false"):
            tests.append(f"{at} == {kit.WORDS[parts[0]][1]!r}")
        elif form == "name" and parts[0] != "_":
            names[parts[0]] = self.fresh()
            own.append(f"{names[parts[0]]} = {at}")
        elif form == "number":
            tests.append(f"{at} == {parts[0]}")
        elif form == "pair":
            for place, part in enumerate(parts[0]):
                self.match(part, f"{at}[{place}]", tests, own, names)
        elif form == "operator" and parts[0] == "∷":
            tests.append(f"{at} != ()")
            self.match(parts[1], f"{at}[0]", tests, own, names)
            self.match(parts[2], f"{at}[1:]", tests, own, names)
        elif form == "apply" and parts[0] == ("name", "suc"):
            tests.append(f"{at} > 0")
            self.match(parts[1][0], f"({at} - 1)", tests, own, names)
        elif form == "apply":
            tests.append(f"{at}[0] == {parts[0][-1]!r}")
            for place, part in enumerate(parts[1], 1):
                self.match(part, f"{at}[{place}]", tests, own, names)
        elif form != "name":
            raise Unreadable(f"the pattern {pattern}")

    def python(self, expression, names):
        form, *parts = expression
        return getattr(self, f"of_{form}")(names, *parts)

    def of_number(self, names, value):
        return str(value)

    def of_text(self, names, value):
        return repr(value)

    def of_name(self, names, name):
        return names[name] if name in names else self.constant(self.all.meaning(self.module, name))

    def constant(self, value):
        """A value of another definition's under a name; a definition without arguments is worked out where it stands."""
        if isinstance(value, (int, tuple)) and not isinstance(value, Case):
            return repr(value)
        name = self.fresh()
        self.known[name] = value
        self.note(value)
        if isinstance(value, Definition):
            if value.count == 0:
                return f"{name}()"
            self.known[name] = Function(value.count, value)
        return name

    def note(self, value):
        if self.definition and isinstance(value, Definition):
            self.definition.uses.add(value)

    def of_field(self, names, of, name):
        if of[0] == "name" and of[1] not in names:
            place = self.module.imports.get(f"{of[1]}.", self.all.home(self.module, of[1]))[0]
            if f"{of[1]}." in self.module.imports or is_declared(place):
                return self.constant(self.all.meaning_in(place, name))
        value = self.python(of, names)
        return f"{value}[{name}]" if name.isdigit() else f"{value}[{name!r}]"

    def of_pair(self, names, parts):
        return f"({', '.join(self.python(it, names) for it in parts)})"

    def of_record(self, names, base, fields):
        given = [f"**{self.python(base, names)}"] if base else []
        return f"Record({{{', '.join(given + [f'{name!r}: {self.python(value, names)}' for name, value in fields])}}})"

    def of_if(self, names, test, first, second):
        return f"({self.python(first, names)} if {self.python(test, names)} else {self.python(second, names)})"

    def of_let(self, names, name, value, within):
        own = self.fresh()
        return f"(lambda {own}: {self.python(within, {**names, name: own})})({self.python(value, names)})"

    def of_function(self, names, given, value):
        own = [self.fresh() for _ in given]
        return f"Function({len(own)}, lambda {', '.join(own)}: {self.python(value, {**names, **dict(zip(given, own))})})"

    def of_operator(self, names, operator, left, right):
        if operator == "∷":
            parts = [left]
            while right[:2] == ("operator", "∷"):
                parts, right = [*parts, right[2]], right[3]
            return f"({', '.join(self.python(it, names) for it in parts)}, *{self.python(right, names)})"
        if operator in OF_PYTHON:
            return f"({self.python(left, names)} {OF_PYTHON[operator]} {self.python(right, names)})"
        return self.of_apply(names, ("name", f"◌{operator}◌"), [left, right])

    def of_apply(self, names, head, arguments):
        given = [self.python(it, names) for it in arguments]
        if head == ("name", "option_or"):  # the second is worked out only if it is asked for
            own = self.fresh()
            return f"(lambda {own}: {own} if {own}[0] == 'Some' else {given[1]})({given[0]})"
        meaning = self.all.meaning(self.module, head[1]) if head[0] == "name" and head[1] not in names else None
        if isinstance(meaning, Definition) and meaning.count == len(given):
            name = self.fresh()
            self.known[name] = meaning
            self.note(meaning)
            return f"{name}({', '.join(given)})"
        return f"applied({', '.join([self.python(head, names), *given])})"


class Definitions:
    """All definitions of the crates, and those of clap, which says what the words of scrypt are, as the toolchain has them."""

    def __init__(self):
        start = pathlib.Path(subprocess.run([shutil.which("rt"), "doc"], capture_output=True, text=True, check=True).stdout.strip())
        self.modules, self.found, self.asked, self.steps = {}, {}, set(), 1 << 40
        files = {f"clap.specs.{it.stem}": it for it in start.parent.glob("rattle/clap/specs/*.antt")}
        for it in CRATES.glob("*/specs/**/*.antt"):
            files[".".join(it.relative_to(CRATES).with_suffix("").parts)] = it
        for name, path in files.items():
            self.modules[name] = Module(name, path.read_text(encoding="utf-8"))

    def home(self, module, name):
        """The module and the name that a name of a file stands for."""
        while name not in module.clauses and name not in module.cases and name in module.imports:
            place, name = module.imports[name]
            if place not in self.modules:  # of the toolchain, or a type with its cases
                owner = self.modules.get(place.rpartition(".")[0])
                return (owner.name if owner and name in owner.cases else place), name
            module = self.modules[place]
        return module.name, name

    def is_case(self, module, name):
        """Whether a name of a file is a case of a type that stands elsewhere."""
        place, given = self.home(module, name)
        is_other = name in module.imports and given in getattr(self.modules.get(place), "cases", ())
        return name in kit.CASES or is_declared(place) or is_other

    def meaning(self, module, name):
        """What a name of a file stands for: a definition, a case, or a word of the toolchain's."""
        place, name = self.home(module, name)
        return self.meaning_in(place, name)

    def meaning_in(self, place, name):
        module = self.modules.get(place)
        if is_declared(place) or name in kit.CASES or module and name in module.cases:
            return Case((name,))
        if module and name in module.clauses:
            if (place, name) not in self.found:
                self.found[place, name] = Definition(self, module, name)
            return self.found[place, name]
        if module and name in module.imports:
            return self.meaning(module, name)
        if name in kit.WORDS:
            count, value = kit.WORDS[name]
            return Function(count, value) if count else value
        return Unknown(name)

    def value_in(self, module, text):
        """What a text comes to, by the names that a file has."""
        return self.program_of(module, text)()

    def call_in(self, module, text):
        """The definition that a text calls, by the names that a file has, and its arguments as programs."""
        _, head, given = Reader(tokens(text)).whole()
        return self.meaning(module, head[1]), [self.program_of_term(module, it) for it in given]

    def program_of(self, module, text):
        return self.program_of_term(module, Reader(tokens(text)).whole())

    def program_of_term(self, module, term):
        translation = Translation(self, module)
        python = translation.python(term, {})
        return eval(f"lambda: {python}", translation.known)


def is_declared(place):
    """Whether a module has the cases of a type of the code's."""
    return ".declared." in place
