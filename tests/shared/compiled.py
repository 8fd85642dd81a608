"""The compiled code of the crates, as the compiler keeps it of each library that it has built: its MIR, in
NAME.rlib/toolchain/mir.json. There a name is a path, whatever it is called in its file, a macro is what it came to, a drop
is a call, and there is no layout. Of the toolchain's own libraries it is beside the toolchain, so calls are followed down
to the functions of C.

A function is generic in dictionaries, by which it calls methods of its bounds. An instance is a function with those that
it was called with, so each call has one callee, but for methods of the bounds of the function that one begins with: these
may be those of each implementation here.
"""
import functools
import gc
import json
import pathlib
import shutil


gc.disable()  # there are no circles, but millions of parts


def functions_of(folders):
    """The functions of these libraries, NAME.rlib, by their paths."""
    found = {}
    for folder in folders:
        found.update(json.loads((folder / "toolchain/mir.json").read_text(encoding="utf-8")))
    return found


def nodes(part):
    """All objects of a part of a body, in their order."""
    if isinstance(part, dict):
        yield part
        part = part.values()
    if isinstance(part, (list, tuple, type({}.values()))):
        for it in part:
            yield from nodes(it)


def types_in(part):
    """The names of the types that a type is written with; without the allocator of a list, which is its last argument."""
    if isinstance(part, dict):
        if "Named" in part and isinstance(part["Named"], list) and isinstance(part["Named"][0], dict):
            (head, arguments), = part.values()
            yield head["name"]
            part = [it for it in arguments if not (head["name"].startswith("std_alloc::") and it == arguments[-1])]
        for it in part.values() if isinstance(part, dict) else part:
            yield from types_in(it)
    elif isinstance(part, list):
        for it in part:
            yield from types_in(it)


def dictionary(part, bounds):
    """A dictionary as its implementation and that one's dictionaries, where these are the function's own."""
    if "Given" in part:
        return bounds[part["Given"]]
    name, _, others = part["Impl"]
    return name, *(dictionary(it, bounds) for it in others)


def written(part):
    """The callees that a part names, in their order, each as one place of the code."""
    return [it for it in nodes(part) if "Fn" in it and isinstance(it["Fn"], list) or "Method" in it or "Foreign" in it or "VtMethod" in it]


class Code:
    """The functions of our own crates and of the toolchain's libraries."""

    def __init__(self, folders):
        self.all, self.methods, self.traits, self.crates, self.known, self.kept = {}, {}, {}, set(), {}, {}
        self.ours = functions_of(folders)
        self.take({it.stem for it in folders}, self.ours)
        # by each method of an implementation of a trait of ours that of the trait: the one's path ends in the other's name
        self.traits_of = {
            method: declared for (impl, number), method in self.methods.items() for (trait, at), declared in self.traits.items()
            if at == number and impl.endswith(trait.split("::")[-1]) and method.split("::")[-1] == declared.split("::")[-1]}

    def take(self, crates, functions):
        """Takes the functions of these crates in."""
        self.crates |= crates
        self.all.update(functions)
        for name, it in functions.items():
            of = it["generics"]["method_of"] or {}
            for kind, (owner, number) in of.items():
                (self.methods if kind == "Impl" else self.traits)[owner, number] = name.removesuffix("+decl")

    def at(self, name):
        """A function, or None; its crate, if it is the toolchain's, is read when it is first asked for."""
        if (crate := name.split("::")[0]) not in self.crates:
            self.take({crate}, functions_of([pathlib.Path(shutil.which("rt")).resolve().parents[1] / f"rlibs/{crate}.rlib"]))
        return self.all.get(name)

    def is_own(self, name):
        """Whether someone wrote this function of ours. One that the compiler made, as of a drop, or of `Clone::clone` or a
        closure as a value, has ++ or +Fn in its path; it is gone through as the toolchain's are."""
        return name in self.ours and "++" not in name and "+Fn" not in name

    def keep(self, what, name, of, make):
        """What was made of a function, or of an instance of it, and is made once, until it is changed."""
        if (what, of) not in (kept := self.kept.setdefault(name, {})):
            kept[what, of] = make()
        return kept[what, of]

    def change(self, name, function):
        """Puts a function in the place of one of ours."""
        self.all[name] = self.ours[name] = function
        self.known = {}
        self.kept.pop(name, None)

    def open(self, name):
        """A function with its bounds for dictionaries: nothing is known of these."""
        return name, tuple((it["of"],) for it in self.at(name)["generics"]["bounds"])

    def callee(self, part, bounds):
        """The instance that a part of a body with these dictionaries calls, or names: (path, dictionaries), of a function of C
        (`C`, name), of a method of a bound (`?`, path of the trait's)."""
        if "Foreign" in part:
            return "C", part["Foreign"]["symbol"]
        if "VtMethod" in part:
            return "?", f"dyn {part['VtMethod']}"
        if "Fn" in part:
            name, words = part["Fn"]
            return name, tuple(dictionary(it, bounds) for it in words["dicts"])
        of, number, words = part["Method"]
        impl, *others = dictionary(of, bounds)
        self.at(impl)
        if (impl, number) not in self.methods:
            return "?", self.traits[impl, number]
        return self.methods[impl, number], (*others, *(dictionary(it, bounds) for it in words["dicts"]))

    def calls(self, instance):
        """The instances that an instance calls, or names, one for each place in its body."""
        name, bounds = instance
        if name in ("C", "?"):
            return ()
        named = self.keep("written", name, None, lambda: written(self.at(name)["body"]))
        return self.keep("calls", name, bounds, lambda: tuple(self.callee(it, bounds) for it in named))

    def through(self, instance):
        """The instances of the toolchain's functions that one comes to through no function of ours, itself first; and
        what these come to: functions of C, methods of bounds, and functions of ours."""
        inside, ends = {instance: None}, set()
        left = [instance]
        while left:
            for it in self.calls(left.pop()):
                if it[0] in ("C", "?") or self.is_own(it[0]):
                    ends.add(it if it[0] in ("C", "?") else (it[0], ()))
                elif it not in inside:
                    inside[it] = None
                    left.append(it)
        return [*inside], ends

    @functools.lru_cache(maxsize=None)
    def beyond(self, instance):
        """What an instance of the toolchain's comes to: no other of its functions."""
        return frozenset(self.through(instance)[1])

    def reached(self, name):
        """What a function of ours comes to, each with the number of places: functions of C and methods of bounds, be it through the
        toolchain's, and functions of ours; no other function of ours is gone through."""
        found = {}
        for it in self.calls(self.open(name)):
            for other in [it] if it[0] in ("C", "?") else [(it[0], ())] if self.is_own(it[0]) else self.beyond(it):
                found[other] = found.get(other, 0) + 1
        return found

    def most(self, name, wanted):
        """How often a run of a function of ours comes to some of these, on that way through its branches on which it does so
        most; a loop counts twice, and 2 is all that is told."""
        if (name, wanted) not in self.known:
            self.known[name, wanted] = 0  # of one that calls itself, which a rule refuses
            bounds = self.open(name)[1]

            def of(callee):
                if callee[0] in wanted:
                    return 1
                return self.most(callee[0], wanted) if self.is_own(callee[0]) else sum(
                    of(it) for it in self.beyond(callee) if it[0] not in ("C", "?"))

            def on(tree):
                kind, *inner = tree
                if kind == "step":
                    return sum(of(self.callee(it, bounds)) for it in written(inner[0]))
                each = [*map(on, inner), 0]
                return max(each) if kind in ("If", "Switch") else sum(each) * (1 + (kind == "Loop"))

            self.known[name, wanted] = min(2, on(tree_of(self.ours[name]["body"])))
        return self.known[name, wanted]

    def deepest(self, instance):
        """The bytes of the locals of those functions that are at work at once, at most, from this one on; and their names. Not
        with them are functions of C, and system_calls, which stands below a bound of the programs'."""
        if instance[0] == "C" or instance[0].startswith("system_calls::"):
            return 0, ()
        if ("deepest", instance) not in self.known:
            self.known["deepest", instance] = 0, ()
            kind, name = instance
            below = [self.open(it) for it, of in self.traits_of.items() if kind == "?" and name == of] or self.calls(instance)
            bytes_below, names = max(map(self.deepest, below), default=(0, ()))
            own = 0 if kind == "?" else self.keep("size", kind, None, lambda: sum(sizes(self.at(kind))))
            self.known["deepest", instance] = own + bytes_below, (*([] if kind == "?" else [f"{kind} {own}"]), *names)
        return self.known["deepest", instance]

    def last(self, name):
        """What a function calls last, on each of its ways."""
        bounds, found = self.open(name)[1], set()

        def after(part, before):
            """What was called last after a part, on the ways that go on."""
            kind, *inner = part
            if kind == "Seq":
                return after(inner[1], after(inner[0], before))
            if kind != "step":
                return set().union(*(after(it, before) for it in inner), before if kind in ("Loop", "Switch") else ())
            if inner == ["Return"]:
                found.update(before)
                return set()
            return {self.callee(it["Call"][0], bounds)[0] for it in nodes(inner) if "Call" in it} or before

        after(tree_of(self.at(name)["body"]), {"nothing"})
        return found


def tree_of(body):
    """A body as a tree: a kind with its parts, or `step` with one statement."""
    left = iter(body)

    def one():
        it = next(left)
        kind, = it if isinstance(it, dict) else [it]
        if kind == "Switch":
            return kind, *(one() for _ in range(len(it[kind][1]) + bool(it[kind][2])))
        parts = {"Seq": 2, "If": 2, "Loop": 1, "Block": 1}.get(kind)
        return (kind, *(one() for _ in range(parts))) if parts else ("step", it)

    return one()


def sizes(function):
    """How many bytes each local of a function takes, as far as its types say."""
    shapes = {it["name"]: it["shape"] for it in function["types"]}

    def size(part, given=()):
        """The size of a type; of a parameter, that which it is given, by its number."""
        if not isinstance(part, dict):
            return {"Ptr": 8, "Bool": 1}.get(part, 0)
        (kind, of), = part.items()
        if kind == "Int":
            return of // 8
        if kind == "Param":
            return given[of]() if of < len(given) else 0
        if kind in ("Array", "Vector"):
            return size(of[0], given) * (of[1].get("Lit", 0))
        if kind == "Struct":
            return sum(size(it, given) for it in of[1])
        if kind == "Named":
            own = [functools.partial(size, it, given) for it in of[1]]
            (how, parts), = shapes.get(of[0]["name"], {"Fields": []}).items()
            return sum(size(it, own) for it in parts) if how == "Fields" else 8 + max(
                (sum(size(it, own) for it in each) for each in parts), default=0)
        return 8

    return [size(it["ty"]) for it in function["locals"]]
