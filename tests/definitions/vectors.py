"""The equations of src/vectors.rt: functions without arguments, whose clauses the checker proves."""
import re

VECTOR = re.compile(r"(?m)^((?:#\[.*\]\n)*)fn (\w+)\(\)\n((?:    .*\n)+)\{")
CLAUSE = re.compile(r"(?ms)^    ensures (\w+) \{ (.*?) \}$(?=\n    ensures|\n?\Z)")
ASSUMED = re.compile(r"(?s)(?:\((\w+) : [\w ]+\)\s+→\s+)?([^→≡]+)\s+≡\s+([^→≡]+)\s+→\s+([^→≡]+)\s+≡\s+([^→≡]+)")
ANY = "(7 ∷ 11 ∷ [])"  # a list, where one holds for all lists


def equations_in(text):
    """The two sides of each equation of a file of vectors, by its vector and its name. An equation that holds where a call has a
    value (of `(x : T) → CALL ≡ x → ..` any value) has these two behind its sides. Other clauses, statements and laws, are none."""
    for _, vector, whole in VECTOR.findall(text):
        for clause, said in CLAUSE.findall(whole):
            sides = re.split(r"\s+≡\s+", said)
            if len(sides) == 2 and "→" not in said:
                yield (vector, clause), sides
            elif found := ASSUMED.fullmatch(said):
                name, *parts = found.groups()
                call, value, left, right = (re.sub(rf"\b{name}\b", ANY, it) if name else it for it in parts)
                yield (vector, clause), [left, right, call, value]
