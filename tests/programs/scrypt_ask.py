#!/usr/bin/env python3
"""Runs scrypt-ask at terminals, in each shell that may be /bin/sh: what is typed and shown, what scrypt gets, signals and
stops while it asks and while scrypt works, processes that are killed, what is told of a long run, commands that print the
passphrase, the file that is made, and what is refused before a passphrase is asked for.

    tests/programs/scrypt_ask.py FOLDER [SHELL ..]    the folder in which scrypt lies; the shells, as dash, or all of them
"""
import contextlib
import multiprocessing
import os
import pathlib
import pty
import random
import re
import resource
import select
import shlex
import shutil
import signal
import sys
import tempfile
import termios
import time

sys.path += map(str, pathlib.Path(__file__).resolve().parents[1].iterdir())  # the other folders of tests/
from checking import Checks, is_there
from scrypt_files import F5, LINES
from tree import read

SCRIPT = read("packaging/scrypt-ask")
SHELLS = {"dash": "dash", "bash": "bash", "bash as sh": "bash --posix", "zsh as sh": "zsh --emulate sh", "zsh": "zsh"}
ASKED, AGAIN = "Passphrase: ", "The same again: "
ONCE, TWICE = f"{ASKED}\r\n", f"{ASKED}\r\n{AGAIN}\r\n"
CHEAP = "--logN 4 -r 1 -p 1"
ENC = f"enc {CHEAP} letters out"
# What is encrypted, and what scrypt makes of the file.
TEXT, MADE = b"Dear Ada", (0, b"Dear Ada", b"")
# What shells, read and printf may take for something else, and each byte that a character of UTF-8 may have after its first.
WORDS = " \\a\\n%s 'x\" $HOME `ls` *  " + "".join(map(chr, range(0x80, 0xC0))) + " \\"
TYPED = ["words\n"] * 2
IS_ROOT, NOBODY = os.getuid() == 0, 65534
OWNER = NOBODY if IS_ROOT else os.getuid()
# In seconds: nothing here takes so long, on a busy machine either.
LIMIT = 120
KEYS = (signal.SIGINT, "\3"), (signal.SIGQUIT, "\34")
UNASKED = """case "$*" in
*'--passphrase file: '*) echo 'scrypt: one passphrase source is needed: ..' >&2; exit 1 ;;
'info '*) exit 0 ;;
esac"""
# Shell scripts that stand for programs. Of scrypt both say what it says without a source of the passphrase; with one,
# the first says what it gets, and the other derives a key in 2 MB of memory, gives it back, writes 5,000 bytes, and
# ends or fails, each once a line in `go` says so. A third ends well, and its file is lost.
PROGRAMS = {
    "other/scrypt": UNASKED + """
printf '<%s>' "$@"
echo
cat /dev/fd/7 /dev/fd/0
ls /dev/fd/8 /dev/fd/9 2>/dev/null
env | grep -c 'a secret'
exit 7
""",
    "slow/scrypt": UNASKED + """
if [ "$1" != again ]; then
    for last; do :; done
    case $last in *scrypt-ask.??????) exec >"$last" ;; esac
    table=0000000000
    while [ ${#table} -lt 2000000 ]; do table=$table$table; done
    read -r it <go
    exec "$0" again
fi
printf '%05000d' 0
read -r it <go
[ "$it" = ends ] || { echo 'scrypt: fails' >&2; exit 1; }
""",
    "losing/scrypt": """../bin/scrypt "$@" || exit
case "$1" in enc | dec) for last; do :; done; : >"$last" ;; esac""",
    # some that refuse, a sync that says what is there, a sleep whose seconds are short, and two that send a signal
    "refusing/chmod": "exit 1", "refusing/cp": "exit 1", "refusing/sync": 'ls "$@" >../synced',
    "sleeping/sleep": '[ "$1" = 1 ] && exec /bin/sleep 0.05',
    "unread/cat": "exit 1", "making/mktemp": '/bin/mktemp "$@"\nkill -s "$IT" "$PPID"',
    "hiding/stty": '[ "$1" != -echo ] || ! mkdir sent 2>/dev/null || kill -s "$IT" "$PPID"\nexec /bin/stty "$@"',
}
# What is told is erased first, stands on the line below, and leaves the cursor where it was.
ERASED, BELOW, BACK = "\x1b[J", "\x1b[J\r\n", "\x1b[A\r"


def said(number):
    """The line of this refusal, as a terminal shows it."""
    return LINES[number].decode().replace("\n", "\r\n")


def unnamed(shown):
    """What is shown, without the names of files in the questions."""
    return re.sub(r"Passphrase for [^\r\n]+: ", ASKED, shown)


class Terminal:
    """A run at a terminal of its own, begun as a shell with jobs begins one, so that it can stop there and go on."""

    def __init__(self, line, folder, environment):
        self.notes, telling = multiprocessing.Pipe()
        self.shown, self.halts = "", 0
        self.leader, self.screen = pty.fork()
        if self.leader == 0:
            try:
                self.notes.close()
                os.chdir(folder)
                self.lead(line, environment, telling)
            finally:
                os._exit(0)
        telling.close()
        self.number = self.notes.recv()

    @staticmethod
    def lead(line, environment, telling):
        """Begins the run in a group of its own, says when it has stopped or ended, and lets it go on when it is told to."""
        signal.signal(signal.SIGTTOU, signal.SIG_IGN)
        if (run := os.fork()) == 0:
            os.setpgid(0, 0)
            os.tcsetpgrp(0, os.getpid())
            for it in signal.valid_signals() - {signal.SIGKILL, signal.SIGSTOP}:
                signal.signal(it, signal.SIG_DFL)  # and not as they were left to the tests
            os.execve("/bin/sh", ["sh", "-c", line], environment)
        telling.send(run)
        while True:  # until nobody is there to tell
            _, status = os.waitpid(run, os.WUNTRACED)
            os.tcsetpgrp(0, os.getpgrp())
            os.write(1, b"\0")
            telling.send("stopped" if os.WIFSTOPPED(status) else os.waitstatus_to_exitcode(status))
            os.tcsetpgrp(0, run if telling.recv() else os.getpgrp())  # or in the background
            os.killpg(run, signal.SIGCONT)

    def until(self, is_so, what, do=None):
        """Looks at the screen until something is so, and does this each second."""
        begun, done = time.monotonic(), 0
        while not is_so():
            passed = time.monotonic() - begun
            if do and passed > done:
                do()
                done += 1
            if passed > LIMIT:
                os.kill(self.leader, signal.SIGKILL)  # and its terminal hangs up
                raise TimeoutError(f"{what} does not come; on the screen: {self.shown.encode('unicode_escape').decode()}")
            if select.select([self.screen], [], [], 0.01)[0]:
                self.shown += os.read(self.screen, 4096).decode(errors="replace")

    def halt(self, do=None):
        """That the run stopped, or its status, once all is seen that it has shown; what was typed too late for it may stand
        behind that. And whether the terminal shows what is typed then."""
        self.halts += 1
        self.until(lambda: self.shown.count("\0") == self.halts, "a note", do)
        return self.notes.recv(), self.echoes()

    def echoes(self):
        return bool(termios.tcgetattr(self.screen)[3] & termios.ECHO)

    def sees(self, text):
        """Waits for a text at the end of what is shown, and says whether the terminal shows what is typed then."""
        self.until(lambda: unnamed(self.shown).endswith(text), repr(text))
        return self.echoes()

    def types(self, text):
        os.write(self.screen, text.encode())

    def answers(self, *typed, at=0):
        """Types this at each question, and says whether the terminal shows what is typed at one of them."""
        is_shown = False
        for prompt, text in zip(((ASKED, AGAIN) * 3)[at:], typed):
            is_shown |= self.sees(prompt)
            self.types(text)
        return is_shown

    def signals(self, number, typed=None):
        """Sends a signal, or types its key, until it is told that the run has stopped or ended: a shell may look for
        signals, and then begin to read. Says so, and whether the terminal shows what is typed then."""
        time.sleep(0.02)
        return self.halt(lambda: self.types(typed) if typed else os.kill(self.number, number))

    def goes_on(self, in_front=True):
        self.notes.send(in_front)

    def ends(self, note=None):
        """The status, what was shown, and whether the terminal shows what is typed then."""
        status, echo = note or self.halt()
        self.notes.close()
        os.waitpid(self.leader, 0)
        os.close(self.screen)
        return status, unnamed(self.shown.replace("\0", "")), echo


class Room:
    """A folder in which scrypt-ask runs in a shell, beside the program or a stand-in for it."""

    def __init__(self, checks, shell, folder):
        self.checks, self.shell, self.top = checks, shell, pathlib.Path(folder)
        for name, text in PROGRAMS.items():
            self.make(name, f"#!/bin/sh\n{text}\n")
        for name in ("bin", "other", "slow", "losing"):
            self.make(f"{name}/scrypt-ask", SCRIPT)
        shutil.copy(checks.program, self.top / "bin/scrypt")
        self.folder = checks.folder = self.top / "room"
        self.folder.mkdir()
        os.chown(self.folder, NOBODY if IS_ROOT else -1, -1)
        self.put, self.held, self.do = checks.put, checks.content, checks.shell

    def make(self, name, text):
        path = self.top / name
        path.parent.mkdir(exist_ok=True)
        path.write_text(text, encoding="utf-8")
        path.chmod(0o755)

    def that(self, name, found, expected):
        self.checks.that(f"{self.shell}: {name}", found, expected)

    def line(self, words, script="bin/scrypt-ask", before="exec"):
        """A shell's line that runs it with these words."""
        return f"{before} {SHELLS[self.shell]} ../{script} {words}"

    def begin(self, words, *typed, line=None, terminal=None, **how):
        """A run, or another line, after this was typed at each question."""
        environment = {"PATH": os.environ["PATH"], "LC_ALL": "C.UTF-8", **({"TERM": terminal} if terminal else {})}
        run = Terminal(line or self.line(words, **how), self.folder, environment)
        if run.answers(*typed):
            self.that(f"{words}: what is typed is not shown", True, False)
        return run

    def run(self, words, *typed, **how):
        """Status and what is shown; and whether the terminal is as it was."""
        return self.begin(words, *typed, **how).ends()

    def without_terminal(self, words, **how):
        """Status, standard output and standard error where no terminal is there."""
        return self.checks.run(["-c", self.line(words, **how)], program="sh", start_new_session=True)

    def opened(self, name):
        """What scrypt makes of a file with the passphrase in the file `words`."""
        return self.checks.run(["dec", "--passphrase", "file:words", "--", name])

    def ended(self, what, terminal, number, typed=None):
        """A run ends by this signal, which is sent now, or was. What was shown."""
        return self.is_by(what, number, *terminal.ends(terminal.signals(number, typed)))

    def is_by(self, what, number, status, shown, echo):
        """The run ended by this signal, or with status 1 where the shell keeps the signal from itself, and the terminal is
        as it was."""
        is_kept = "zsh" in self.shell or "bash" in self.shell and number == signal.SIGQUIT
        self.that(what, (status == -number or status == 1 and is_kept, echo), (True, True))
        return shown

    def names(self):
        return sorted(it.name for it in self.folder.iterdir())

    def stays(self, what, *names):
        """These are there, and in the outfile is what was there before."""
        self.that(f"{what}: files", (self.names(), self.held("out")), ([*names], b"older"))

    def clear(self, **files):
        """Nothing lies there but these, and a FIFO where that has no content."""
        self.do("rm -rf -- *")
        for name, content in files.items():
            os.mkfifo(self.folder / name) if content is None else self.put(name, content)


# In a shell: asks, encrypts, and opens as scrypt does with the passphrase in the file `words`.
FUNCTIONS = """set -e; ask() { %s "$@"; }; enc() { ask enc --logN 4 -r 1 -p 1 "$@"; }
opened() { ../bin/scrypt dec --passphrase file:words -- "$1"; echo; }
"""
DIFFER, EMPTY = "the two differ: nothing is encrypted", "an empty passphrase keeps nobody out: nothing is encrypted"
NONE, LEFT = "no passphrase was typed", "outfile has the permissions 600: its own could not be set"
QUESTIONS = [f"{it}\n" for before in ("", "The two differ. ", "The two differ again. ") for it in (before + ASKED, AGAIN)]
# Lines of such a shell, beside letters, words, an older file and a FIFO; what is typed; what is shown after the questions.
SCENES = [
    # what is typed wrongly makes no file, and costs none; two that differ are asked for again, twice
    *((f"{command} letters older || echo $?; echo *; cat older", typed.splitlines(keepends=True),
       f"scrypt-ask: {line}\n1\nfifo letters older words\nolder") for command, typed, line in (
        ("enc", "a\nb\na\na \na\n\n", DIFFER), ("enc", "\n", EMPTY), ("enc", "a\nb\n\n", EMPTY), ("enc", "\4", NONE),
        ("enc", "a\n\4", NONE), ("enc", "a\nb\na\n\4", NONE), ("ask dec", "\4", NONE))),
    ("enc letters out; opened out", ["a\n", "b\n", "a\n", "c\n", *TYPED], "Dear Ada\n"),
    # permissions of a new file, and of one that is replaced; links, other names, devices and FIFOs
    *((f"umask {it}; enc letters out; stat -c %a out", TYPED, f"{mode}\n") for it, mode in ((22, 644), (27, 640), (77, 600))),
    ("chmod 604 older; enc letters older; opened older; stat -c '%a %u' older", TYPED, f"Dear Ada\n604 {OWNER}\n"),
    ("ln older hard; enc letters older; cat hard", TYPED, "older"),
    ("ln -s older link; enc letters link; opened older; readlink link", TYPED, "Dear Ada\nolder\n"),
    ("ln -s beyond link; enc letters link; opened beyond; readlink link", TYPED, "Dear Ada\nbeyond\n"),
    ("enc letters /dev/null; stat -c %F /dev/null", TYPED, "character special file\n"),
    ("wc -c <fifo & enc letters fifo; wait", TYPED, "136\n"),
    # streams; nothing else is made
    *((f"enc {it}; opened stream; echo *", TYPED, "Dear Ada\nfifo letters older stream words\n") for it in (
        "letters >stream", "letters - >stream", "- <letters >stream", "- - <letters >stream",
        "/dev/stdin /dev/stdout <letters >stream")),
    *((f"enc {it}; opened out; rm -f stream; echo *", TYPED, "Dear Ada\nfifo letters older out words\n") for it in (
        "letters out", "- out <letters", "/dev/fd/0 out <letters", "- out 2>stream <letters", "letters out <&- >&-")),
    *((f"enc {it} || echo $?", TYPED, LINES[no].decode() + "1\n") for it, no in (("- out <&-", "S12"), ("letters >&-", "S13"))),
    # permissions cannot be set; what is in the folder, as it is brought to the disk
    *((f"PATH=../refusing:$PATH; enc letters {it}; opened {it}; stat -c %a {it}; cat ../synced; echo *", TYPED,
       "\n".join([f"scrypt-ask: {LEFT}", "Dear Ada", "600", *there.split(), there, ""]))
      for it, there in (("older", "fifo letters older words"), ("out", "fifo letters older out words"))),
    # names of every form, and links to them
    *((f"mkdir -- -d; cp -- letters {it}.in; enc -- {it}.in {it}; opened {it}; "
       f'ln -s -- "$PWD"/{it} link; ask dec link - | cat', [*TYPED, TYPED[0]], f"Dear Ada\n{ASKED}\nDear Ada")
      for it in map(shlex.quote, ("two words", "two\nlines", "two lines\n", "-dash", "-d/-e", "'$x`y`*\"\\", "\u00e4"))),
]


def scenes(room):
    """What is typed and shown, permissions of a file, links, devices and FIFOs, streams, and names of every form."""
    for line, typed, shown in SCENES:
        room.clear(letters=TEXT, words=b"words", older=b"older", fifo=None)
        if IS_ROOT:
            os.chown(room.folder / "older", NOBODY, NOBODY)
        found = room.run(line, *typed, line=FUNCTIONS % room.line("", before="") + line)
        shown = "".join(QUESTIONS[: len(typed) - shown.count(ASKED)]) + shown
        room.that(f"{line}, {typed}", found, (0, shown.replace("\n", "\r\n"), True))


def typed_and_opened(room):
    """A file that is made under what is typed opens under it, typed or in a file, and under nothing else."""
    room.clear(letters=TEXT * 1000)
    found = room.run(ENC, f"{WORDS}\n", f"{WORDS}\n")
    room.that("enc", (found, room.names()), ((0, TWICE, True), ["letters", "out"]))
    room.put("words", WORDS.encode())
    room.that("opened by scrypt", room.opened("out"), (0, TEXT * 1000, b""))
    # also at a terminal that does not read by lines, as where a shell edits them
    for end, before in (("\n", "exec"), ("\r", "stty -icanon -icrnl -isig; exec")):
        found = room.run("dec out text", WORDS + end, before=before)
        room.that(f"dec, {before}", (found, room.held("text") == TEXT * 1000), ((0, ONCE, True), True))
    room.put("text", b"older")
    for name, typed in (("less at the end", WORDS[:-1]), ("less at the front", WORDS[1:]), ("a space more", f"{WORDS} "),
                        ("nothing", "")):
        room.that(f"dec, {name}", room.run("dec out text", f"{typed}\n"), (1, ONCE + said("S10"), True))
    room.put("out", room.held("out")[:-1])
    room.that("dec, damaged", room.run("dec out text", f"{WORDS}\n"), (1, ONCE + said("S11"), True))
    room.that("what was there before stays", (room.held("text"), room.names()), (b"older", ["letters", "out", "text", "words"]))


def signals_while_it_asks(room):
    """A signal ends it, by that signal, with the terminal as it was and no file; a stop shows what is typed until it goes on."""
    for first in ([], ["a\n"]):
        for number, typed in (*KEYS, (signal.SIGTERM, ""), (signal.SIGHUP, ""), (signal.SIGINT, "")):
            room.clear(letters=TEXT, out=b"older")
            what = f"{number.name} {'typed' if typed else 'sent'} at {'both' if first else 'one'}"
            room.ended(what, room.begin(ENC, *first, "abc"), number, typed)
            room.stays(what, "letters", "out")
    for at, asked in enumerate((ASKED, AGAIN)):
        room.clear(letters=TEXT, words=b"words")
        terminal = room.begin(ENC, *TYPED[:at])
        terminal.sees(asked)
        for turn, typed in (("typed", "abc\32"), ("sent", "")):
            room.that(f"stopped at {at}, {turn}", terminal.signals(signal.SIGTSTP, typed), ("stopped", True))
            terminal.goes_on()
            room.that(f"asked again at {at}, {turn}", terminal.sees(f"\0{asked}"), False)
        terminal.answers(*TYPED[at:], at=at)
        room.that(f"stopped twice at {at}, and gone on", (terminal.ends()[::2], room.opened("out")), ((0, True), MADE))
    terminal = room.begin("dec out text")
    terminal.sees(ASKED)
    terminal.signals(signal.SIGTSTP)
    os.kill(terminal.number, signal.SIGTERM)
    terminal.goes_on()
    found = *terminal.ends()[::2], room.names()
    room.that("stopped, and ended", found, (-signal.SIGTERM, True, ["letters", "out", "words"]))
    # those that come before a question, while the new file is made or the terminal is set, count, too
    room.clear(letters=TEXT, out=b"older", words=b"words")
    for where in ("making", "hiding"):
        before = "IT={}; export IT; PATH=../%s:$PATH; exec" % where
        for it in ("INT", "QUIT", "TERM", "HUP"):
            what = f"{it} while {where}"
            room.is_by(what, getattr(signal, f"SIG{it}"), *room.run(ENC, before=before.format(it)))
            room.do("rm -d -f sent")
            room.stays(what, "letters", "out", "words")
    terminal = room.begin(ENC, before=before.format("TSTP"))
    room.that("stopped while hiding", terminal.halt(), ("stopped", True))
    terminal.goes_on()
    room.that("asked again after that", terminal.sees(f"\0{ASKED}"), False)
    room.ended("stopped while hiding, and ended", terminal, signal.SIGTERM)


def begun_to_write(room, **files):
    """A run that waits for more to encrypt, after scrypt has begun the new file beside an older one."""
    room.clear(out=b"older", given=None, **files)
    terminal = room.begin(f"enc {CHEAP} - out <given")
    giving = open(room.folder / "given", "wb", buffering=0)
    terminal.answers(*TYPED)
    giving.write(b"Dear")
    modes = lambda: [oct(it.st_mode) for it in map(os.stat, room.folder.glob("scrypt-ask.??????")) if it.st_size]
    terminal.until(modes, "a file")
    room.that("who can read a file that is not whole", modes(), ["0o100600"])
    return terminal, giving


def signals_while_scrypt_works(room):
    """A signal ends scrypt, too; what it has made goes, and the older file stays. A stop stops both."""
    for number, typed in (*KEYS, (signal.SIGTERM, ""), (signal.SIGHUP, "")):
        terminal, giving = begun_to_write(room)
        room.ended(f"{number.name}, {'typed' if typed else 'sent'}, to scrypt at work", terminal, number, typed)
        room.stays(number.name, "given", "out")
        looked = select.poll()
        looked.register(giving, 0)  # which gives an error where nobody reads
        room.that(f"{number.name}: who is left to read", looked.poll(0), [(giving.fileno(), select.POLLERR)])
        giving.close()
    terminal, giving = begun_to_write(room, words=b"words")
    room.that("stopped at work", terminal.signals(signal.SIGTSTP, "\32")[0], "stopped")
    terminal.goes_on()
    giving.write(b" Ada")
    giving.close()
    found, made = terminal.ends()[::2], room.opened("out")
    if room.shell.startswith("zsh") and found[0] > 128:  # its wait may give the number of the stop: the new file is given up
        room.that("stopped at work, and given up: the older file", room.held("out"), b"older")
    else:
        room.that("stopped at work, and gone on", (found, made), ((0, True), MADE))
    # scrypt is ended by the system, and says nothing
    room.clear(letters=bytes(4096), out=b"older")
    found = room.run(ENC, *TYPED, before="ulimit -f 1; exec")
    room.that("a file that grows too large", (found[0], found[2]), (128 + signal.SIGXFSZ, True))
    room.stays("a file that grows too large", "letters", "out")


def what_it_tells(room):
    """How far a long run is, at a terminal that can erase lines, but not in the background; it is erased at the end, also
    after a message or a signal. Nothing of a short run, without such a terminal, or where standard error is a file."""
    room.clear(letters=bytes(10128), long=bytes(9999), go=None)
    go = open(os.open(room.folder / "go", os.O_RDWR), "w", buffering=1, encoding="utf-8")
    key, half, unseen = (
        f"({re.escape(BELOW)}{line}{re.escape(BACK)})+"
        for line in (r"deriving the key: [1-9]\d? MiB, \d+ s", r"(0|49|50) %, 0 MiB, 0 MiB/s, \d+ s left", r"the file: \d+ s"))
    # on a machine with much work it may look before the table is there
    end, whole, sleeping = re.escape(ERASED), f"({half})?{key}{half}", "PATH=../sleeping:$PATH; exec"

    def begin(words="letters out", terminal="xterm"):
        return room.begin(f"enc {words}", "a\n", "a\n", script="slow/scrypt-ask", before=sleeping, terminal=terminal)

    for words, last, kind, expected in (
        *((it, "ends", "xterm", whole + end) for it in ("letters out", "- out <letters", "letters >>long")),
        ("letters >/dev/null", "ends", "xterm", f"({unseen})?{key}{unseen}{end}"),
        ("letters out", "fails", "xterm", f"{whole}scrypt: fails\r\n({half})?{end}"),
        ("letters out 2>said", "ends", "xterm", ""), ("letters out", "ends", "dumb", ""),
    ):
        terminal = begin(words, kind)
        for order, told in (("goes", "deriving"), (last, "(49|50) %|the file")):
            if expected:
                terminal.until(lambda: re.search(f"({told})[^\n]*{re.escape(BACK)}$", terminal.shown), told)
            else:
                time.sleep(0.12)
            print(order, file=go)
        status, shown, echo = terminal.ends()
        is_told = re.fullmatch(TWICE + expected, shown) is not None
        room.that(f"told of {words}, {kind}, {last}", (status, is_told or shown, echo), (int(last == "fails"), True, True))
    room.that("told to a file", room.held("said"), b"")
    for number in (signal.SIGINT, signal.SIGTERM):
        terminal = begin()
        terminal.sees(BACK)
        shown = room.ended(f"{number.name} while it tells", terminal, number)
        room.that(f"told until {number.name}", shown.endswith(ERASED), True)
    terminal = begin()
    terminal.sees(BACK)
    terminal.signals(signal.SIGTSTP, "\32")
    terminal.shown, terminal.halts = "", 0
    terminal.goes_on(in_front=False)
    time.sleep(0.5)  # ten times as long as a second is here
    print("goes\nends", file=go)
    status, _ = terminal.halt()
    shown = lambda: terminal.shown.replace("\0", "")
    terminal.until(lambda: shown().endswith(ERASED), "what erases it")  # for which zsh may not wait
    is_told = re.fullmatch(f"{key[:-1]}?{end}", shown()) is not None  # with what was begun before the stop
    room.that("told in the background", (status, is_told or shown()), (0, True))
    shown = room.run("enc --logN 15 -r 8 -p 3 letters out", "a\n", "a\n", terminal="xterm", before=sleeping)[1]
    room.that("told of scrypt", "deriving the key: 32 MiB, 1 s" in shown or shown, True)
    room.that("told of a short run", room.run(ENC, "a\n", "a\n", terminal="xterm"), (0, TWICE, True))


def processes_are_killed(room):
    """Whichever process is killed, whenever: no file opens under another passphrase than was typed, status 0 is that of a
    whole file, and nothing half made stays; also where a file is taken away while scrypt works."""
    room.clear(letters=TEXT, out=b"older", words=b"words")
    room.make("bin/changed", SCRIPT.replace("printf '%.2049s\\n' \"$typed\"", "kill -KILL $(exec sh -c 'echo $PPID')"))
    line = "scrypt-ask: scrypt was killed, as where memory is short: --keep 16 takes a sixteenth\r\n"
    found = room.run(ENC, *TYPED, script="bin/changed")
    room.that("what writes the passphrase is killed", (found, room.held("out")), ((137, TWICE + line, True), b"older"))
    for turn in range(21):
        is_killed = turn % 3 > 0  # a process of it; else the run itself is signalled, when it has asked once
        room.put("out", b"older")
        terminal = room.begin(ENC, *TYPED[: 1 + is_killed], terminal="xterm")
        number, until, kids = terminal.number, time.monotonic() + random.random() * 0.03, []
        with contextlib.suppress(OSError):  # it has ended
            while time.monotonic() < until or is_killed and not kids:
                kids = pathlib.Path(f"/proc/{number}/task/{number}/children").read_text(encoding="ascii").split() or kids
            victim = int(random.choice(kids)) if is_killed else number
            os.kill(victim, signal.SIGKILL if is_killed else signal.SIGTERM)
        if not is_killed:
            asked = lambda: terminal.shown.endswith(AGAIN)
            terminal.until(lambda: asked() or terminal.notes.poll(), "a question, or the end")
            terminal.types("words\n" * asked())  # it was ignored, between two waits, or comes just now
        status, *_ = terminal.ends()
        is_right = room.opened("out") == MADE or status != 0 and room.held("out") == b"older"
        room.that(f"killed in turn {turn}, {status}", (is_right, room.names()), (True, ["letters", "out", "words"]))
    # the new file, then the place of the older one, are taken away
    unread = "scrypt-ask: what was written to outfile cannot be read\r\n"
    for name, line, why in (
        ("the new file", "rm scrypt-ask.??????", unread),
        ("the older one", "rm out; mkdir out", "scrypt-ask: outfile cannot be replaced\r\n"),
    ):
        terminal, giving = begun_to_write(room)
        room.do(line)
        giving.close()
        status, shown, _ = terminal.ends()
        room.that(f"{name} is taken away", (status, shown.removeprefix(TWICE), room.names()), (1, why, ["given", "out"]))
    # scrypt ends well, and what it wrote is not there, or cannot be read
    room.clear(letters=TEXT, words=b"words")
    room.run(ENC, *TYPED)
    room.put("letters", room.held("out"))
    room.put("out", b"older")
    for words, asked, how in ((ENC, TWICE, {"script": "losing/scrypt-ask"}),
                              ("dec letters out", ONCE, {"before": "PATH=../unread:$PATH; exec"})):
        found = room.run(words, *TYPED[: asked.count("\n")], **how)
        room.that(f"{words}, and it is lost", found, (1, asked + unread, True))
        room.stays(f"{words}, and it is lost", "letters", "out", "words")


def printed_by_a_command(room):
    """The first line that a command prints, with no terminal, also a long one (bash would take 100 s to look for a CR in it);
    a command that fails, prints nothing or is ended makes no file."""
    room.clear(letters=TEXT, words=b" a\\b ", long=b"x" * (1 << 20), more=b" a\\b \r" + b"\ny" * 70000)
    for words in ("--passcommand 'cat words; echo; echo z' letters out", "letters --passcommand='cat words' out",
                  "--passcommand 'cat more' - out <letters", "--passcommand 'cat words' -- letters >out"):
        room.that(words, room.without_terminal(f"enc {CHEAP} {words}"), (0, b"", b""))
        found = room.opened("out"), room.without_terminal("dec --passcommand 'cat more' out")
        room.that(f"{words}: the file", found, (MADE, MADE))
        room.put("out", None)
    room.put("out", b"older")
    empty = "scrypt-ask: the command of --passcommand printed no passphrase"
    for command, words, line in (
        ("dec", "--passcommand 'cat words; false'", "scrypt-ask: the command of --passcommand failed"),
        ("dec", "--passcommand=", empty), ("dec", "--passcommand 'echo; cat words'", empty),
        (f"enc {CHEAP}", "--passcommand \"printf '\\r\\n'\"", empty),
        ("enc", "--passcommand 'cat long'", "scrypt: passphrase is longer than 2048 bytes"),
    ):
        found = room.without_terminal(f"{command} letters out {words}")
        room.that(f"{command} {words}", found, (1, b"", f"{line}\n".encode()))
    for number, typed in (*KEYS, (signal.SIGTERM, "")):
        what = f"{number.name} while a command works"
        terminal = room.begin(f"enc {CHEAP} --passcommand 'echo $$ >number; exec sleep 60' letters out")
        terminal.until(lambda: room.held("number"), "a number")
        room.that(f"{what}: what is asked", "Passphrase" in room.ended(what, terminal, number, typed), False)
        words = pathlib.Path(f"/proc/{int(room.held('number'))}/cmdline")  # none of one that has ended
        until = time.monotonic() + 2
        while (left := words.exists() and words.read_text()) and time.monotonic() < until:
            time.sleep(0.01)
        room.that(f"{what}: who is left", left or "", "")
        room.put("number", None)
    room.stays("after a command", "letters", "long", "more", "out", "words")
    for number in (5, 9, 10):
        room.clear(letters=TEXT, words=b"words", out=b"older")
        status = room.without_terminal(f"{ENC} --passcommand 'cat words'", before=f"ulimit -n {number}; exec")[0]
        is_right = room.opened("out") == MADE if status == 0 else room.held("out") == b"older"
        room.that(f"{number} descriptors, {status}", (is_right, room.names()), (True, ["letters", "out", "words"]))


def what_scrypt_gets(room):
    """The words as they are, costs where none are given, the passphrase by the pipe alone, and the standard input."""
    costs = "--logN 20 -r 8 -p 1"
    for words, passed in (
        ("enc in", f"{costs} in"), ("enc -- in", f"{costs} -- in"), ("enc in /dev/null", f"{costs} in /dev/null"),
        *((f"enc {it} in", f"{it} in") for it in ("--logN=9", "--logN 9", "-r8", "-r 8", "-p1", "-p 1")),
        ("enc --logN 9 in -r 8 -p1", "--logN 9 in -r 8 -p1"), ("enc -M5 --keep=4 in", f"{costs} -M5 --keep=4 in"),
        ("enc -M 5 in --salt 00 --maxops 7 --keep 4", f"{costs} -M 5 in --salt 00 --maxops 7 --keep 4"), ("dec in", "in"),
        ("dec in -", "in"), ("dec - -", "-"), ("dec -x in", "-x in"), ("dec --keep 2 in -M 5", "--keep 2 in -M 5"),
    ):
        room.clear(**{"in": b"input"})
        asked = TWICE if words.startswith("enc") else ONCE
        typed = ["a secret\n"] * asked.count("\n")
        exported = "export typed=exported first=exported; exec"
        status, shown, echo = room.run(f"{words} <in >got", *typed, script="other/scrypt-ask", before=exported)
        got = f"<{words[:3]}><--passphrase><file:/dev/fd/7>" + "".join(f"<{it}>" for it in passed.split())
        shown = shown.removeprefix(asked) + room.held("got").decode()
        room.that(f"{words}: what scrypt gets", (status, shown, echo), (7, f"{got}\na secret\ninput0\n", True))
    _, shown, _ = room.run("dec in <in", "a secret\n", script="other/scrypt-ask", before="exec env SHELLOPTS=allexport")
    room.that("where all variables are exported", shown.endswith("0\r\n"), True)
    for options in ("-x", "-v", "-e"):
        line = f"ulimit -S -c $(ulimit -H -c); exec {SHELLS[room.shell]} {options} ../other/scrypt-ask dec in <in"
        terminal = room.begin("", line=line)
        terminal.until(lambda: ASKED in unnamed(terminal.shown), repr(ASKED))  # also if the shell shows what it does
        room.that(f"{options}: bytes that a core file may have", resource.prlimit(terminal.number, resource.RLIMIT_CORE)[0], 0)
        terminal.types("a secret\n")
        status, shown, _ = terminal.ends()
        found = status, shown.count("a secret")
        room.that(f"{options}: how often the passphrase is shown, beside what scrypt shows", found, (7, 1))


def names_of_files(room):
    """The encrypted file is named where its name can be shown, and no character of another name gets to the terminal."""
    room.clear(letters=TEXT, out=b"older")
    for words, named in (
        ("enc letters out", " for out"), ("dec out text", " for out"), ("dec ./out", " for ./out"),
        ("enc letters >two", ""), ("dec - <out", ""), ("enc letters 'two words'", " for two words"),
        *((f"enc letters {shlex.quote(it)}", "") for it in ("\x1b[2J", "a\rb", "two\nlines", "\x7f", "\u009b2J")),
    ):
        terminal = room.begin(words, "\4")
        terminal.ends()
        room.that(f"{words!r}: the question", terminal.shown.splitlines()[0], f"Passphrase{named}: ")


# What cannot be done is refused by one line before a passphrase is typed: words by what our line says, or by scrypt's.
REFUSED = {
    "leave": ["enc -P letters out", "dec --passphrase env:X letters out", "enc -Pr8 letters out",
              "dec --passphrase=file:words letters"],
    **{f"set -o pipefail; tar -cf - {it} | scrypt-ask enc - new && mv new {it}.tar.scrypt\r\n": words for it, words in (
        ("folder", ["enc folder", "enc folder/ out"]), ("FOLDER", ["enc .", "enc - out <folder"]))},
    "name an outfile": ["enc letters", "enc - - <letters"],
    "descriptors 6 to 9 are in use here": ["enc letters /dev/fd/6", "enc /dev/fd/7 out", "enc -- /proc/self/fd/8 out",
                                           "enc letters /dev/fd/9 9</dev/null"],
    "--passcommand needs a command": ["enc letters out --passcommand"],
    "outfile is a folder": ["enc letters folder", "dec letters ./"],
    "infile is not found": ["enc nothing out", "dec nothing"],
    "infile cannot be read": ["dec folder"],
    "infile and outfile are one file": ["enc letters ./letters", "enc letters hard", "enc letters also",
                                        "enc - letters <letters"],
    "outfile is a link to nowhere": ["enc letters self"],
    "the folder of outfile is not found": ["enc letters nowhere/out"],
    "no file can be made in the folder of outfile": ["enc letters /sys/out"],
    "S1": ["", "enc", "--helm", "dec letters out more", "enc --logn 4 letters", "dec --logN 4 letters",
           "dec letters out --keep"], "S6": ["info letters"],
    "S2a": ["enc --logN 4 letters out"], "S2b": ["enc --logN 0 -r 1 -p 1 letters"], "S2d": ["dec letters letters"],
}


def refused_before_it_asks(room):
    """What needs no passphrase is scrypt's; what cannot be done is refused before a passphrase is typed."""
    room.clear(letters=TEXT, out=b"older", words=b"words", F5=F5)
    room.do("mkdir folder closed; ln -s self self; ln -s letters also; ln letters hard; cp out closed")
    before = room.names()

    def refuses(name, line, words, **how):
        status, shown, echo = room.run(words, **how)
        is_ours = shown.startswith("scrypt-ask: ") and line in shown and shown.count("\n") == 1
        is_said = shown == said(line) if line in LINES else is_ours
        room.that(name, (status, is_said or shown, echo), (1, True, True))

    for line, words in REFUSED.items():
        for it in words:
            refuses(it, line, it)
    for words in ("--help", "-h", "--version"):
        status, shown, _ = room.run(words)
        is_short = shown.count("\n") < 24 and max(map(len, shown.splitlines())) <= 80
        room.that(words, (status, is_short, "man scrypt-ask" in shown, "--passcommand" in shown), (0, True, True, True))
    room.that("info", room.run("info F5"), (0, "N = 16; r = 1; p = 1; memory = 2048; cores = 64\r\n", True))
    for name, mode, line in (("out", 444, "outfile may not be written"), ("new", 444, "no file can be made"),
                             ("out", 666, "no file can be made")):
        room.do(f"chmod {mode} closed/out; chmod 555 closed")
        nobody = f"exec setpriv --reuid={NOBODY}" if IS_ROOT else "exec"
        refuses(f"closed/{name}, mode {mode}, as somebody else", line, f"enc words closed/{name}", before=nobody)
    room.do("chmod 755 closed")
    line = b"scrypt-ask: there is no terminal to type a passphrase at: use --passcommand\n"
    room.that("without a terminal", room.without_terminal("enc letters out"), (1, b"", line))
    for old, new, line in (("/dev/fd", "/nowhere", "there is no /nowhere"), ("command -v", "which", "printf is a program here")):
        room.make("bin/changed", SCRIPT.replace(old, new))
        refuses(line, line, "enc letters out", script="bin/changed")
    room.that("what is there after all this", (room.names(), room.held("out"), room.held("letters")), (before, b"older", TEXT))


def main():
    if len(sys.argv) < 2:
        raise SystemExit(__doc__)
    checks = Checks(os.path.join(sys.argv[1], "scrypt"))
    shells = [it for it in sys.argv[2:] or SHELLS if is_there(SHELLS[it].split()[0], f"scrypt-ask is not run in {it}")]
    for shell in shells:
        with tempfile.TemporaryDirectory() as folder:
            os.chmod(folder, 0o755)
            room = Room(checks, shell, folder)
            for part in (typed_and_opened, scenes, signals_while_it_asks, signals_while_scrypt_works, what_it_tells,
                         processes_are_killed, printed_by_a_command, what_scrypt_gets, names_of_files, refused_before_it_asks):
                part(room)
    checks.end()


if __name__ == "__main__":
    main()
