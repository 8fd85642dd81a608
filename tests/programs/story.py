#!/usr/bin/env python3
"""Does what README and the manual pages show: README's first screen, a folder under a typed passphrase, and the
story; the examples of the pages, in each shell that they are for, also where a command before a pipe fails, a
password is wrong, or the stored text is empty. The login of docs/LIBRARY.md's Rust program is that of a test, and the
text that it enrols is what the built argon2 writes.

    tests/programs/story.py FOLDER               in which the programs lie
    tests/programs/story.py --recipes FOLDER     what is typed for README, and the examples of scrypt-ask, argon2 and argon2-verify
    tests/programs/story.py --prove              proves, builds and runs that Rust program over the crates (some minutes)
"""
import os
import pathlib
import re
import shlex
import sys
import tempfile
import textwrap

sys.path += map(str, pathlib.Path(__file__).resolve().parents[1].iterdir())  # the other folders of tests/
import roff
from checking import Checks, is_there, ran
from scrypt_ask import AGAIN, ASKED, CHEAP, Terminal
from shown import GREAT, LIBRARY, STORED
from tree import TOP, read

README = read("README.md")
END = "== end of the command ==\n"


def blocks_of_readme(heading):
    """The blocks of code below a heading of README."""
    section = README.split(f"\n## {heading}\n")[1].split("\n## ")[0]
    return [textwrap.dedent(it) for it in re.findall(r"(?:^    .*\n)+", section, re.MULTILINE)]


def examples(page, heading="EXAMPLES"):
    """The examples in a section of a manual page, in their order, as they are typed, and what the page says that they print."""
    found = []
    for text in roff.examples(page, heading):
        begin = ("$ ", "    ") if re.search(r"^\$ ", text, re.MULTILINE) else ""  # how lines that are typed begin
        typed = "".join(line.removeprefix("$ ") for line in text.splitlines(keepends=True) if line.startswith(begin))
        found.append((typed, "".join(line for line in text.splitlines(keepends=True) if not line.startswith(begin))))
    return found


class Shell:
    """A shell with the programs on its path, in an empty folder, in which what a page says is tried."""

    def __init__(self, checks, name, programs, room, page):
        self.checks, self.name, self.room, self.page = checks, name, pathlib.Path(room), page.removesuffix(".md")
        path = f"{os.path.abspath(programs)}:{TOP}/packaging:{os.environ['PATH']}"
        self.environment = {**os.environ, "PATH": path, "LC_ALL": "C"}

    def run(self, text, given="", **variables):
        """Status and what is printed on both streams."""
        return ran(self.name, "-c", text, input=given, cwd=self.room, env={**self.environment, **variables})

    def expect(self, name, found, expected):
        self.checks.that(f"{self.page} in {self.name}: {name}", found, expected)

    def says(self, name, text, expected, **how):
        """A text ends with this status, and prints this."""
        self.expect(name, self.run(text, **how), expected)

    def fails(self, name, text, kept, status=1):
        """A text ends with this status, and by this line all is as it was."""
        self.expect(f"{name} fails", (self.run(text)[0], self.run(kept)), (status, (0, "")))


def costs_are_timed(shell):
    """The loops that time costs, for small ones."""
    for page, loop in (("README", *blocks_of_readme("Which costs")), ("scrypt.1", examples("scrypt.1", "COSTS")[0][0])):
        status, said = shell.run("set -e\n" + loop.replace("14 15 16 17 18 19 20", "4 5"))
        timed = re.findall(r"^--logN \d+$", said, re.MULTILINE)
        shell.expect(f"costs are timed, {page}", (status, timed), (0, ["--logN 4", "--logN 5"]))


def scrypt_examples(shell):
    (backup, _), look, (opened, _), (whole, _), (again, _), _, small, (keep, _) = examples("scrypt.1")
    (guard_of_a_file, _), (guard, _), (by_dd, _) = examples("scrypt.1", "SECURITY")
    says, fails = shell.says, shell.fails
    fails("a backup of what is not there", backup, "", 2)
    for name in ("head", "base64"):
        line = f"rm -f letters.enc backup-key; {name}() {{ return 1; }}; {backup}"
        fails(f"a backup without a key, as {name} does,", line, "test ! -e letters.enc")
    shell.run("rm -f backup-key; mkdir letters; echo 'Dear Ada' >letters/to-ada; head -c 32 /dev/urandom | base64 >new-key")
    says("a backup", backup, (0, ""))
    line = "cp letters.enc saved\n" + backup.replace("letters |", "letters nothere |")
    fails("a backup of which a part is not there", line, "cmp letters.enc saved && rm saved letters.new", 2)
    status, said = shell.run(f"cp backup-key first; {backup}cmp backup-key first && rm first")
    shell.expect("a backup again keeps the key", (status, "backup-key" in said), (0, True))
    says("look at it", look[0], (0, look[1]))
    says("open it", opened, (0, ""))
    says("what was opened", "tar -tf letters.tar", (0, "letters/\nletters/to-ada\n"))
    says("is it whole", whole, (0, "whole\n"))
    line = f"cp letters.enc saved; head -c 500 saved >letters.enc; cp letters.enc cut\n{again}"
    kept = "cmp cut letters.enc && test ! -e letters.new && mv saved letters.enc"
    fails("a new passphrase for a damaged file", line, kept)
    says("a new passphrase", again, (0, ""))
    says("with it", whole.replace("backup-key", "new-key"), (0, "whole\n"))
    says("without it", whole, (1, "scrypt: wrong passphrase\n"))
    says("no text was left", "ls", (0, "backup-key\ncut\nletters\nletters.enc\nletters.tar\nnew-key\n"))
    shell.run("echo Dear >in")
    same = "scrypt dec --passphrase file:new-key letters.enc | cmp - letters.tar && test ! -e letters.new"
    for held in ("", r"\n", r"\nwords", r"\r\n", r"\rwords", r"\0", r"\0\0\n"):
        fails(f"the guard of a file of '{held}'", f"printf '{held}' >key; {guard_of_a_file}", "test ! -e out")
        fails(f"the guard of a command of '{held}'", f"pass() {{ printf '{held}'; }}; {guard}", "test ! -e out")
        text = f"printf '{held}' >new-key.empty; " + again.replace("new-key", "new-key.empty")
        shell.expect(f"a new passphrase of '{held}'", (shell.run(text), shell.run(same)), ((1, ""), (0, "")))
    for command in ("false", "{ echo words; false; }"):
        fails(f"the guard of a command that is {command}", f"pass() {{ {command}; }}; {guard}", "test ! -e out")
    for given, text in (("echo words >key", guard_of_a_file), ("pass() { echo words; }", guard)):
        says(f"the guard after {given}", f"{given}; {text}echo words | scrypt dec -P out && rm out", (0, "Dear\n"))
    shell.run("rm -f key new-key.empty")
    line = "false | scrypt enc -P in open; scrypt dec -P open </dev/null"
    says("an empty passphrase after a pipe", line, (0, "Dear\n"))
    says("a small machine", small[0], (0, small[1]), KEY="words of ours")
    fails("a small machine without the variable", "".join(small[0].splitlines(keepends=True)[1:3]), "")
    says("what it made", "scrypt info small.enc; scrypt dec --passphrase env:KEY small.enc | cmp - letters.tar",
         (0, "N = 32768; r = 8; p = 2; memory = 33554432; cores = 2097152\n"), KEY="words of ours")
    made = "scrypt enc --passphrase env:KEY letters.tar letters.enc; "
    says("rows kept in part", f"{made}{keep}cmp letters.part letters.tar", (0, ""), KEY="words of ours")
    quiet = by_dd.replace("conv=fsync", "conv=fsync status=none")
    says("written by dd", f"{quiet}scrypt dec --passphrase file:backup-key letters.enc | cmp - letters.tar", (0, ""))
    fails("written by dd, where there is no room", quiet.replace("of=letters.enc", "of=/dev/full"), "")


def argon2_examples(shell):
    """A hash of a typed password, and its check; or, in a shell that cannot hide what is typed, without the line that asks,
    and with the password in a variable, as the page says of scripts."""
    enrol, check, key = (text for text, _ in examples("argon2.1"))
    asks = r"^  printf '(.*: )' >&2; IFS= read -rs password; echo >&2\n"
    prompts = [re.search(asks, it, re.MULTILINE)[1] + "\n" for it in (enrol, check)]
    if shell.name == "dash":
        enrol, check, prompts = *(re.sub(asks, "", it, flags=re.MULTILINE) for it in (enrol, check)), ["", ""]
    (new, asked), right = prompts, "correct horse"

    def enter(name, text, password, expected):
        given = {"password": password} if shell.name == "dash" else {"given": f"{password}\n"}
        shell.says(name, text, expected, **given)

    enter("a hash to keep", enrol, right, (0, new))
    for password, refusal in (("", "is empty"), ("x" * 128, "is longer than 127 bytes")):
        line = f"cp stored before; {enrol}s=$?; cmp before stored && exit $s"
        name = f"a hash of {len(password)} bytes is refused, and what was stored stays"
        enter(name, line, password, (1, f"{new}argon2: password {refusal}\n"))
    enter("the right password", check, right, (0, f"{asked}welcome\n"))
    for password in ("battery staple", "correct horse ", " correct horse", "correct\\\\horse", "", "x" * 200):
        enter(f"the password '{password}'", check, password, (1, f"{asked}not you\n"))
    if shell.name != "dash":
        left = 'echo "<$password$salt>"'
        enter("nothing stays in the shell", f"{enrol}{left}", right, (0, f"{new}<>\n"))
        enter("nothing stays after a check", f"{check}{left}", right, (0, f"{asked}welcome\n<>\n"))
    for words in ("'s,l$t = \u00e4' -i -t 2 -k 100 -p 3 -l 30 -v 10", "'ends in a line\n\n' -d -t 1 -k 8 -l 64"):
        line = f"printf %s other | argon2 {words} -e >stored\n{check}"
        enter(f"a text of {words}", line, "other", (0, f"{asked}welcome\n"))
    refused = "the file's first line is no encoded hash"
    for made, line in ((": >stored", refused), ("echo >stored", refused), ("rm -f stored", "file cannot be read")):
        for password in ("anything", "correct horse", ""):
            expected = 1, f"{asked}argon2-verify: {line}\nnot you\n"
            enter(f"the password '{password}' after {made}", f"{made}; {check}", password, expected)
    status, said = shell.run(key, salt="a salt that is kept", password=right)
    shell.expect("a key", (status, len(bytes.fromhex(said))), (0, 64))
    shell.says("a key without a salt", key, (1, "argon2: salt length out of range\n"), password=right)


def argon2_verify_examples(shell):
    """Both checks of a password in a variable, under `set -e`, which ends where such a pipe stands alone."""
    plain, told, _ = (f"set -e\n{text}" for text, _ in examples("argon2-verify.1"))
    shell.run("printf %s 'correct horse' | argon2 somesalt -id -t 1 -k 8 -e >stored; cp stored other")
    for password, said in (("correct horse", "welcome\n"), ("correct horse\n", "not you\n"), ("x", "not you\n"), ("", "not you\n")):
        for text in (plain, told):
            shell.says(f"the password {password!r}", text, (0, said), password=password)
    refused = "argon2-verify: the file's first line is no encoded hash\n"
    for text, said in ((plain, "not you\n"), (told, "try again later\n")):
        shell.says("an empty file", f": >stored\n{text}", (0, refused + said), password="correct horse")
    alone = f"set -e\n{re.search('printf .* stored', plain)[0]}\necho after it"
    shell.says("a refusal alone", alone, (2, refused), password="x")
    shell.says("a wrong password alone", f"cp other stored\n{alone}", (1, ""), password="x")


def typed(shell, name, text, before="", after="", status=0):
    """These lines, at lower costs, end with this status, and show but this and the questions, at each of which a
    passphrase is typed."""
    cheap = re.sub(r"scrypt-ask enc( --logN \d+ -r 8 -p 1)?", f"scrypt-ask enc {CHEAP}", text)
    terminal, asked = Terminal(f"exec {shell.name} -c {shlex.quote(cheap)}", shell.room, shell.environment), before
    for command in re.findall(r"scrypt-ask (enc|dec) ", text):
        for prompt in (ASKED, AGAIN)[: 1 + (command == "enc")]:
            terminal.sees(asked + prompt)
            terminal.types("words\n")
            asked += f"{prompt}\r\n"
    shell.expect(name, terminal.ends()[:2], (status, asked + after))


def typed_folder(shell):
    """A folder is encrypted, got back and encrypted again; where `tar` fails, the older file stays."""
    made, opened, again = blocks_of_readme("Typing a passphrase")
    shell.run("mkdir letters; echo 'Dear Ada' >letters/to-ada; cp -r letters kept")
    for name, text in (("a folder", made), ("got back", "rm -r letters\n" + opened), ("encrypted again", again), ("and got back", opened)):
        typed(shell, name, text)
    shell.says("what is there", "diff -r letters kept; ls", (0, "kept\nletters\nletters.tar.scrypt\n"))
    shell.run("cp letters.tar.scrypt before")
    text = made.replace("tar -cf - letters |", "tar -cf - leters 2>/dev/null |")
    typed(shell, "a folder that is not there", text, status=2)
    shell.says("a folder that is not there: the older file", "cmp before letters.tar.scrypt", (0, ""))


def first_screen(shell):
    """The commands of README's first screen after the first, which installs, pasted as they stand into an empty folder; at
    lower costs, with a passphrase typed at each question. No line follows one that asks, which would read it."""
    install, *commands = re.findall(r"^    (.*)$", README.partition("\n[^speed]:")[0], re.MULTILINE)
    shell.expect("the line that installs", install.startswith("make run && make install "), True)
    typed(shell, "the first screen", "\n".join(commands), before="welcome\r\n")
    shell.expect("lines of the first screen that ask", [it for it in commands if "scrypt-ask" in it], commands[-1:])
    shell.says("what was opened", "cat opened; cmp letter opened; cmp -s letter letter.scrypt", (1, "Dear Ada\n"))


def asking_examples(shell):
    """The examples of scrypt-ask in the manual pages: the text comes back each time."""
    shell.run("mkdir letters; echo 'Dear Ada' >letters/to-ada; tar -cf letters.tar letters; cp letters.tar kept")
    texts = [text for page in ("scrypt-ask.1", "scrypt.1") for text, _ in examples(page) if "scrypt-ask" in text]
    for text in texts:
        typed(shell, text, text, after="letters/\r\nletters/to-ada\r\n" if "tar -tf" in text else "")
        shell.says(f"what is there after {text}", "cmp letters.tar kept", (0, ""))
    shell.expect("examples of scrypt-ask", len(texts), 6)


def texts_of_others(shell):
    """README's check of texts of other programs, under the limits that it gives a server; Django's word cut off as the page says."""
    check, limits = re.search(r"`(printf .*) FILE` ends .* a server adds `(.*?)`", " ".join(README.split())).groups()
    (cut,) = re.findall(r'^\.B "(sed .*)"$', read("man/argon2-verify.1"), re.MULTILINE)
    for status, texts in ((0, STORED), (2, GREAT)):
        for text in texts:
            (shell.room / "theirs").write_text(text + "\n", encoding="utf-8")
            found = shell.run(f"{cut} theirs >stored; {check} {limits} stored", password="correct horse")
            shell.expect(f"a text of another program, {text[:34]}", found[0], status)


def rust_program():
    """The Rust program of docs/LIBRARY.md, and what the page says that it prints."""
    program = read("docs/programs/accounts.txt")
    shown = re.search(r"It prints:\n\n((?:    .*\n)+)", LIBRARY.split(program)[1])[1]
    return program, textwrap.dedent(shown)


def functions(text):
    """The functions of a Rust text that begin at the left, by their names."""
    return {found[2]: found[1] for found in re.finditer(r"^(fn (\w+)\(.*?^\}\n)", text, re.MULTILINE | re.DOTALL)}


def library_is_tested(shell):
    """The Rust program's functions are those of a test, and the first line that it prints is what the program argon2
    makes of the password, salt and settings that stand there."""
    files = [it for it in sorted(TOP.glob("crates/*/src/**/*.rt")) if "tests" in it.parts[-2:] or it.name == "tests.rt"]
    tested, (program, shown) = functions("".join(it.read_text(encoding="utf-8") for it in files)), rust_program()
    of_program = functions(program)
    shell.expect("LIBRARY's login is a test's", "may_enter" in of_program and "may_enter" in tested, True)
    for name in sorted(of_program.keys() & tested.keys() - {"main"}):
        shell.expect(f"LIBRARY's {name} is that of a test", of_program[name], tested[name])
    password, salt = re.findall(r'enrol\(alloc, b"(.*)", b"(.*)"\)', program)[0]
    passes, lanes, memory = re.findall(r"0x13,\s+(\d+),\s+(\d+),\s+([\d_]+),\s+32,", program)[0]
    line = f"argon2 {shlex.quote(salt)} -id -t {passes} -p {lanes} -k {memory.replace('_', '')} -e"
    shell.says("LIBRARY's enrolled text", line, (0, shown.splitlines(keepends=True)[0]), given=password)


def prove():
    sys.path.insert(0, str(TOP / "bench"))
    from scratch import built

    program, shown = rust_program()
    with tempfile.TemporaryDirectory() as room:
        text = pathlib.Path(room) / "main.rt"
        text.write_text(program, encoding="utf-8")
        found = ran(built("accounts", "argon argon_text", str(text)))
    if found != (0, shown):
        raise SystemExit(f"LIBRARY's program ends with, and prints, {found}")


def story_is_told(shell):
    """README's story, command by command. Its login lets nobody in where the stored text is empty."""
    told = re.findall(r"^\$ (.*\n(?:> .*\n)*)((?:(?!\$ ).*\n)*)", "".join(blocks_of_readme("A story")), re.MULTILINE)
    story = [(command.rstrip("\n").replace("\n> ", "\n"), answer) for command, answer in told]
    found = shell.run("".join(f"{command}\nprintf '{END}'\n" for command, _ in story))[1].split(END)[:-1]
    shell.expect("as many answers as commands", len(found), len(story))
    for (command, expected), answer in zip(story, found):
        shell.expect(command, answer, expected)
    (login,) = [command for command, answer in story if answer == "welcome\n"]
    for stored in (": >stored", "echo >stored", "rm stored"):
        for password in ("''", "$(printf %200d 0)", "'correct horse'"):
            status, said = shell.run(f"touch stored; {stored}\n" + login.replace("'correct horse'", password))
            shell.expect(f"{password} after {stored}", (status, "welcome" in said), (2, False))


# A page, the shells that its examples are for, and what tries them.
RECIPES = [
    ("README.md", ("bash", "zsh"), first_screen), ("README.md", ("bash", "zsh"), typed_folder),
    ("scrypt-ask.1", ("bash", "zsh"), asking_examples), ("argon2.1", ("bash", "dash", "zsh"), argon2_examples),
    ("argon2-verify.1", ("bash", "dash", "zsh"), argon2_verify_examples),
]
OTHERS = [
    ("README.md", ("bash",), library_is_tested), ("README.md", ("bash",), story_is_told),
    ("README.md", ("bash",), texts_of_others), ("README.md", ("bash", "zsh"), costs_are_timed),
    ("scrypt.1", ("bash", "zsh"), scrypt_examples),
]


def main():
    if sys.argv[1:] == ["--prove"]:
        return prove()
    *option, programs = sys.argv[1:] or ["none"]
    if programs == "none" or option not in ([], ["--recipes"]):
        raise SystemExit(__doc__)
    checks = Checks(os.path.join(programs, "scrypt"))
    for page, shells, part in RECIPES if option else [*RECIPES, *OTHERS]:
        for name in shells:
            if is_there(name, f"the examples of {page} are not tried in it"):
                with tempfile.TemporaryDirectory() as room:
                    part(Shell(checks, name, programs, room, page))
    checks.end()


main()
