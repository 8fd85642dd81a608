"""What the tests of the built programs share: a program is run, and what it did is compared with what it should have done."""
import os
import pathlib
import shutil
import subprocess
import sys
import tempfile
import time

# In seconds, and blocks of 512 bytes: no run takes so long, and none writes a file so large.
TIME_LIMIT = 60
FILE_LIMIT = 16384
# Heaps that programs may bring, by Debian's packages of them.
HEAPS = {
    "electric-fence": "/usr/lib/libefence.so.0", "libjemalloc2": "/usr/lib/x86_64-linux-gnu/libjemalloc.so.2",
    "libmimalloc2.0": "/usr/lib/x86_64-linux-gnu/libmimalloc.so.2",
    "libtcmalloc-minimal4": "/usr/lib/x86_64-linux-gnu/libtcmalloc_minimal.so.4",
}


class Checks:
    """A program, the folder and the environment in which it runs, and how many comparisons passed and failed."""

    def __init__(self, program, folder=".", environment=None):
        self.program = os.path.abspath(program)
        self.folder, self.environment = folder, environment
        self.passed = self.failed = 0

    def that(self, name, found, expected):
        if found == expected:
            self.passed += 1
        else:
            self.failed += 1
            print(f"FAILED {name}")
            for which, it in difference(found, expected):
                text = repr(it)
                print(f"  {which:8} {text if len(text) < 600 else text[:400] + ' .. ' + text[-100:]}")
            if "STOP_AT_FIRST" in os.environ:
                self.end()

    def run(self, words, given=b"", program=None, **more):
        """Status, standard output and standard error of the program with these words and this standard input."""
        how = {"cwd": self.folder, "env": self.environment, "timeout": TIME_LIMIT, **more}
        ran = subprocess.run([program or self.program, *words], input=given, capture_output=True, **how)
        return ran.returncode, ran.stdout, ran.stderr

    def shell(self, text, given=b""):
        """The same of a shell's line, in which the program is $0."""
        return self.run(["-c", f"ulimit -f {FILE_LIMIT}; {text}", self.program], given, "sh")

    def start(self, words, **streams):
        """The program, running; the streams that are not given are pipes."""
        piped = {name: subprocess.PIPE for name in ("stdin", "stdout", "stderr")}
        return subprocess.Popen([self.program, *words], cwd=self.folder, env=self.environment, **{**piped, **streams})

    def put(self, name, content):
        """Makes the file of this name, or takes it away where there is no content."""
        path = pathlib.Path(self.folder, name)
        path.unlink(missing_ok=True) if content is None else path.write_bytes(content)

    def content(self, name):
        """The bytes of the file of this name, or None where there is none."""
        path = pathlib.Path(self.folder, name)
        return path.read_bytes() if path.exists() else None

    def unread_pipe(self, words, given=b""):
        """Status and standard error where nobody reads standard output any more."""
        reading, writing = os.pipe()
        os.close(reading)
        running = self.start(words, stdout=writing)
        os.close(writing)
        _, said = running.communicate(given)
        return running.returncode, said

    def slowly(self, words, given, seconds):
        """The same as `run`, with the standard input coming byte by byte."""
        running = self.start(words)
        for byte in given:
            running.stdin.write(bytes([byte]))
            running.stdin.flush()
            time.sleep(seconds)
        out, said = running.communicate()
        return running.returncode, out, said

    def end(self):
        """Says how many passed and failed, and ends the process."""
        print(ended(self.passed, self.failed))
        raise SystemExit(1 if self.failed else 0)


def over_programs(test, usage, *names):
    """Runs a test in a folder of its own, over the programs of these names in the folder that the one word names."""
    if len(sys.argv) != 1 + bool(names):
        raise SystemExit(usage)
    programs = [os.path.abspath(os.path.join(sys.argv[1], it)) for it in names]
    with tempfile.TemporaryDirectory() as folder:
        checks = Checks(programs[0] if programs else "none", folder)
        test(checks, folder, *programs)
    checks.end()


def over_library(test):
    over_programs(test, "the folder in which the library lies is expected", "")


def difference(found, expected):
    """What is said of a comparison that fails: of two lists, or tables, what one alone has, where there is any; else both."""
    pair = [list(it.items()) if isinstance(it, dict) else it for it in (found, expected)]
    if all(isinstance(it, (list, set)) for it in pair):
        alone = [[it for it in one if it not in other] for one, other in (pair, pair[::-1])]
        if any(alone):
            return zip(("too many", "missing"), alone)
    return ("found", found), ("expected", expected)


def ended(passed, failed):
    """How many comparisons passed and failed, where there were any."""
    return f"{passed} passed, {failed} failed" if passed + failed else "nothing was tried"


def left_out(why, without, rows="all"):
    """Says that so many rows of a test, or all of a part, are left out, and why. The gate names a file, and says it again at its end."""
    line = f"left out: {why}: {without} (rows: {rows})"
    print(line)
    with open(os.environ.get("PIKHSEN_LEFT_OUT", os.devnull), "a", encoding="utf-8") as file:
        file.write(f"{line}, {os.path.relpath(sys.argv[0])}\n")


def is_there(program, without, rows="all"):
    """Whether a program is installed. Where it is not, what is left out is said."""
    found = shutil.which(program) is not None
    if not found:
        left_out(f"{program} is not installed", without, rows)
    return found


def compiled(text, out, *flags):
    """Makes a program, or what the flags say, of a text in C."""
    subprocess.run(["cc", *flags, "-x", "c", "-", "-o", out], input=text, text=True, check=True)


def ran(*words, **more):
    """Status and output of a program."""
    done = subprocess.run(words, stdout=subprocess.PIPE, stderr=subprocess.STDOUT, text=True, **more)
    return done.returncode, done.stdout


def said(*words, check=True):
    """What a program says on standard output."""
    return subprocess.run(words, stdout=subprocess.PIPE, check=check, text=True).stdout
