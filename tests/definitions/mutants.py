"""Mutants of definitions: what a slip of the hand would make of a clause, one change at a time.

    number     one more or one less            text       without its last byte
    operator   another operator or word        branch     always the one side of an `if`, or the sides swapped
    order      two operands or arguments of    clause     a clause dropped, so that another serves; two neighbours' values
               one type swapped                           swapped
    field      another field of the record of  name       another variable, definition or case of the same type
               the same type; a change left out
"""
import re

from antt import Definition

OPERATORS = {"+": "-*", "-": "+", "*": "+", "/": "*%", "%": "/", "^": "*", "&&": ["||"], "||": ["&&"]}
SWAPPED = {"-", "/", "%", "^", "++"}  # operators whose sides say different things
WORDS = dict(it.split(" ") for it in (
    "nat_lt nat_le,nat_le nat_lt,nat_eq nat_le,min max,max min,take drop,drop take,rotate_left rotate_right,rotate_right rotate_left,"
    "bit_xor bit_and,bit_and bit_xor,is_some is_none,is_none is_some,list_all list_any,list_any list_all,true false,false true,"
    "to_be_bytes little_bytes,before_first after_first,after_first before_first,position_or_len count_by").split(","))
ORDERED = {"nat_lt", "nat_le", "div_ceil", "bit_not"}  # words whose two arguments are numbers


def parts_of(term):
    """The parts of a term, each with how the term is made with another in its place."""
    form, *parts = term
    if form == "record":
        if parts[0]:
            yield parts[0], lambda it: (form, it, parts[1])
        for at, (name, value) in enumerate(parts[1]):
            yield value, lambda it, at=at, name=name: (form, parts[0], put(parts[1], at, (name, it)))
    elif form == "pair":
        for at, value in enumerate(parts[0]):
            yield value, lambda it, at=at: (form, put(parts[0], at, it))
    elif form == "apply":
        yield parts[0], lambda it: (form, it, parts[1])
        for at, value in enumerate(parts[1]):
            yield value, lambda it, at=at: (form, parts[0], put(parts[1], at, it))
    elif form not in ("number", "text", "name"):
        for at, value in enumerate(term):
            if isinstance(value, tuple):
                yield value, lambda it, at=at: (*term[:at], it, *term[at + 1:])


def put(items, at, item):
    return [*items[:at], item, *items[at + 1:]]


def swapped(items, at):
    return [*items[:at], items[at + 1], items[at], *items[at + 2:]]


def names_in(term):
    """The names that stand in a term."""
    return {term[1]} if term[0] == "name" else {name for part, _ in parts_of(term) for name in names_in(part)}


def written(term):
    """A term as a definition writes it."""
    form, *parts = term
    if form == "text":
        return f'"{bytes(parts[0]).decode(errors="replace")}"'
    if form == "field":
        return f"{within(parts[0])}.{parts[1]}"
    if form == "pair":
        return f"({', '.join(map(written, parts[0]))})"
    if form == "record":
        base = f"{within(parts[0])} " if parts[0] else ""
        return f"record {base}{{ {'; '.join(f'{name} = {written(it)}' for name, it in parts[1])} }}"
    if form == "if":
        return "if {} then {} else {}".format(*map(written, parts))
    if form == "let":
        return f"let {parts[0]} = {written(parts[1])} in {written(parts[2])}"
    if form == "function":
        return f"λ {' '.join(parts[0])}. {written(parts[1])}"
    if form == "operator":
        return f"{within(parts[1])} {parts[0]} {within(parts[2])}"
    return " ".join(map(within, [parts[0], *parts[1]])) if form == "apply" else str(parts[0])


def within(term):
    return f"({written(term)})" if term[0] in ("if", "let", "function", "operator", "apply") else written(term)


def arguments_of(kind):
    """The types of a definition's arguments, and that of its value, by its own type."""
    parts, depth = [""], 0
    for word in re.sub(r"\{[^}]*\} →", "", kind).split():
        if word == "→" and depth == 0:
            parts.append("")
            continue
        depth += word.count("(") - word.count(")")
        parts[-1] = f"{parts[-1]} {word}".strip()
    return parts


class Mutants:
    """What stands beside what in all definitions: fields and cases of one type, by their names."""

    def __init__(self, definitions):
        self.all, self.fields, self.cases = definitions, {}, {}
        own = [it for it in definitions.modules.values() if not it.name.startswith("clap.")]
        groups = [group for it in own for group in it.together]
        known = {name for group in groups for name in group}
        for module in own:
            for name, (place, given) in module.imports.items():
                if ".TheVariants" in place:  # cases of a type of the code's: those that a file names
                    found = re.findall(rf"\b{re.escape(name)}(\w+)", module.text) if name.endswith(".") else [given]
                    self.cases.setdefault(place, set()).update(found)
            for clauses in module.clauses.values():
                for _, value, _ in clauses:
                    groups += [dict.fromkeys(names, "") for names in records_in(value) if not known & {*names}]
        for group in groups:
            for name, kind in group.items():
                others = [it for it in group if it != name and group[it] == kind]
                if others and name not in self.fields:
                    self.fields[name] = next((it for it in others if it > name), min(others))

    def keys(self):
        """The definitions that have a value, by their module and name; but for those of specs/Inside/, which say nothing of a
        public call (tests/pages/definitions_told.py holds that), and the values that equations alone name."""
        for module in self.all.modules.values():
            place = module.name.split(".")
            for name in module.clauses if place[0] != "clap" and place[2] != "Inside" and place[-1] != "Vectors" else ():
                if not arguments_of(module.types.get(name, ""))[-1].startswith(("Type", "Fml")):
                    yield module.name, name

    def of(self, module, name):
        """The mutants of a definition: their kinds, what each puts for what, its clauses, and the clauses that it changes."""
        self.module, self.name = self.all.modules[module], name
        clauses, made, seen = self.module.clauses[name], [], []
        kinds = arguments_of(self.module.types.get(name, ""))
        for at, (patterns, value, cases) in enumerate(clauses):
            self.scope = {}
            for pattern, kind in zip(patterns, kinds):
                self.bind(pattern, kind)
            made += [(kind, said, put(clauses, at, (patterns, new, cases)), {at}) for kind, said, new in self.changes(value)]
            head = " ".join(map(within, patterns))
            if len(clauses) > 1:
                made.append(("clause", f"{name} {head} dropped", [*clauses[:at], *clauses[at + 1:]], {at}))
            if at + 1 < len(clauses):
                others, other, of_other = clauses[at + 1]
                bound, bound_there = ({it for pattern in found for it in names_in(pattern)} for found in (patterns, others))
                if not (names_in(value) & bound) - bound_there and not (names_in(other) & bound_there) - bound:
                    exchanged = [*clauses[:at], (patterns, other, cases), (others, value, of_other), *clauses[at + 2:]]
                    made.append(("clause", f"{name} {head} has the value of the next", exchanged, {at, at + 1}))
        for kind, said, changed, places in made:
            if changed != clauses and changed not in seen:
                seen.append(changed)
                yield kind, said, changed, places

    def bind(self, pattern, kind):
        """Notes the types of the variables of a pattern."""
        form, *parts = pattern
        if form == "name":
            self.scope[parts[0]] = kind
        elif form == "apply" and parts[0] == ("name", "suc"):
            self.bind(parts[1][0], kind)
        elif form == "operator" and parts[0] == "∷" and kind.startswith("List "):
            self.bind(parts[1], kind.removeprefix("List ").strip("()"))
            self.bind(parts[2], kind)

    def changes(self, term):
        """What stands for a term with one change: the kind of the change, what it puts for what, and the whole."""
        for kind, new in self.own(term):
            said = f"if {written(term[1])}: {branch_of(term, new)}" if term[0] == "if" else f"{written(term)} → {written(new)}"
            yield kind, said, new
        for part, whole in parts_of(term):
            yield from ((kind, said, whole(new)) for kind, said, new in self.changes(part))

    def own(self, term):
        form, *parts = term
        return getattr(self, f"of_{form}", lambda *_: ())(*parts)

    def of_number(self, value):
        yield "number", ("number", value + 1)
        yield "number", ("number", max(value - 1, 0))

    def of_text(self, value):
        yield "text", ("text", value[:-1] if value else (0,))

    def of_if(self, test, first, second):
        yield from (("branch", it) for it in (first, second, ("if", test, second, first)))

    def of_operator(self, operator, left, right):
        if operator == "==":
            yield "operator", ("apply", ("name", "not"), [("operator", operator, left, right)])
        yield from (("operator", ("operator", it, left, right)) for it in OPERATORS.get(operator, ()))
        if operator in SWAPPED:
            yield "order", ("operator", operator, right, left)

    def of_apply(self, head, given):
        meaning = self.meaning(head)
        kinds = arguments_of(meaning.module.types.get(meaning.name, "")) if meaning else []
        if head[0] == "name" and head[1] in ORDERED:
            kinds = ["ℕ"] * 2
        for at in range(min(len(given), len(kinds)) - 1):
            if kinds[at] == kinds[at + 1]:
                yield "order", ("apply", head, swapped(given, at))
        if head == ("name", "cond"):
            yield from (("branch", it) for it in (given[1], given[2], ("apply", head, swapped(given, 1))))

    def of_record(self, base, fields):
        for at in range(len(fields)):
            if base:
                left = [*fields[:at], *fields[at + 1:]]
                yield "field", ("record", base, left) if left else base
            elif at + 1 < len(fields) and self.fields.get(fields[at][0]) and fields[at][1] != fields[at + 1][1]:
                (name, value), (other, of_other) = fields[at], fields[at + 1]
                yield "order", ("record", base, [*fields[:at], (name, of_other), (other, value), *fields[at + 2:]])

    def of_field(self, of, name):
        place = self.module.imports.get(f"{of[1]}.") if of[0] == "name" and of[1] not in self.scope else None
        if place:
            others = sorted(self.cases.get(place[0], ()))
            yield from (("name", ("field", of, it)) for it in next_of(name, others))
        elif name.isdigit():
            yield "field", ("field", of, "1" if name == "0" else "0")
        elif name in self.fields:
            yield "field", ("field", of, self.fields[name])

    def of_name(self, name):
        if name in WORDS and name not in self.scope and not self.meaning(("name", name)):
            yield "operator", ("name", WORDS[name])
        others = []
        if name in self.scope:
            others = [it for it, kind in self.scope.items() if kind == self.scope[name] and it != "_"]
        elif meaning := self.meaning(("name", name)):
            kind = meaning.module.types.get(meaning.name)
            found = [it for it in {*self.module.clauses, *self.module.imports} if it != self.name and not it.endswith(".")]
            others = [it for it in found if self.kind_of(it) == kind and kind]
        else:
            place, given = self.all.home(self.module, name)
            group = next((it for it in getattr(self.all.modules.get(place), "together", ()) if given in it), {})
            others = [it for it in group if group[it] == group[given] and it in self.all.modules[place].cases
                      and (place == self.module.name or it in self.module.imports)]
        yield from (("name", ("name", it)) for it in next_of(name, sorted(others)))

    def kind_of(self, name):
        meaning = self.meaning(("name", name))
        return meaning and meaning.module.types.get(meaning.name)

    def meaning(self, head):
        """The definition for which a name stands, if it is one."""
        if head[0] != "name" or head[1] in self.scope:
            return None
        found = self.all.meaning(self.module, head[1])
        return found if isinstance(found, Definition) else None


def branch_of(term, new):
    return "then" if new == term[2] else "else" if new == term[3] else "the other"


def next_of(name, names):
    """The name after this one, if there is another."""
    others = [it for it in names if it != name]
    return [next((it for it in others if it > name), others[0])] if others else []


def records_in(term):
    if term[0] == "record":
        yield [name for name, _ in term[2]]
    for part, _ in parts_of(term):
        yield from records_in(part)
