#!/usr/bin/env python3
"""Lets apt put pikhsen-libargon2 into the place of Debian's libargon2-1, and that into its place again, in an overlay of this
system that is gone afterwards: PHP verifies hashes that were made before, cryptsetup opens a volume, and nothing is broken.

    tests/library/compat_swap.py PACKAGE      needs root, Debian's apt, and for the way back a network
"""
import os
import pathlib
import sys

sys.path += map(str, pathlib.Path(__file__).resolve().parents[1].iterdir())  # the other folders of tests/
from checking import is_there, left_out, over_programs, ran

# Mounts, in a space of its own, a system over this one, which stays as it is; and runs there what follows.
OVERLAY = """mount -t tmpfs -o size=1g none "$ROOM" && mkdir "$ROOM/upper" "$ROOM/work" "$ROOM/all" &&
    mount -t overlay overlay -o "lowerdir=/,upperdir=$ROOM/upper,workdir=$ROOM/work" "$ROOM/all" &&
    mount -t proc proc "$ROOM/all/proc" && mount --bind /dev "$ROOM/all/dev" || exit 77
cp "$PACKAGE" "$ROOM/all/root/package.deb" && exec chroot "$ROOM/all" sh -c "$INSIDE"
"""
INSIDE = """cd /root
export DEBIAN_FRONTEND=noninteractive PATH=/usr/sbin:/usr/bin:/sbin:/bin
packages() { apt-get -q -y -o Acquire::Retries=0 -o Acquire::http::Timeout=10 "$@" >said 2>&1 || { echo "apt-get $*: $?"; cat said; }; }
has() { command -v "$1" >/dev/null; }
state() {
    echo "$1: $(dpkg -S /usr/lib/x86_64-linux-gnu/libargon2.so.1 | cut -d: -f1)"
    packages check
    dpkg -l | grep -v '^ii' | grep argon2 | grep '^.[^n]'
}
hash() { ! has php || php -n -r 'echo password_hash("secret", PASSWORD_ARGON2ID, ["memory_cost" => 1024, "time_cost" => 2]);'; }
verify() { ! has php || php -n -r 'if (!password_verify("secret", $argv[1])) echo "php: no\\n";' -- "$1"; }
volume() { ! has cryptsetup || cryptsetup "$@" --key-file key volume || echo "cryptsetup $1: $?"; }

printf passphrase >key
truncate -s 24M volume
older=$(hash)
volume luksFormat --batch-mode --type luks2 --pbkdf argon2id --pbkdf-memory 1024 --pbkdf-force-iterations 4
state before
packages install ./package.deb
state swapped
verify "$older"
volume open --test-passphrase
newer=$(hash)
packages install libargon2-1
state back
verify "$newer"
volume open --test-passphrase
"""


def swapped(checks, folder, package):
    """What is said on the way is who owns the library, and what goes wrong."""
    without = f"{os.path.basename(package)} is not installed in an overlay"
    if os.geteuid() != 0:
        left_out("this is not root", without, 1)
        return
    if not all(is_there(it, without, 1) for it in ("unshare", "apt-get", "chroot")):
        return
    if not pathlib.Path("/usr/lib/x86_64-linux-gnu/libargon2.so.1").exists():
        left_out("libargon2-1 is not installed", without, 1)
        return
    room = pathlib.Path(folder, "room")
    room.mkdir()
    variables = {"ROOM": str(room), "PACKAGE": package, "INSIDE": INSIDE}
    status, said = ran("unshare", "-m", "sh", "-c", OVERLAY, env={**os.environ, **variables})
    if status == 77:
        left_out("no overlay can be mounted here", without, 1)
        return
    lines = said.splitlines()
    there = ["before: libargon2-1", "swapped: pikhsen-libargon2"]
    if "apt-get install libargon2-1: 100" in lines and any("Could not resolve" in it or "Failed to fetch" in it for it in lines):
        left_out("Debian's archive cannot be reached", "libargon2-1 is not installed again", 1)
        checks.that("apt, one way", lines[:2], there)
        return
    checks.that("apt, both ways", lines, [*there, "back: libargon2-1"])


if __name__ == "__main__":
    over_programs(swapped, __doc__, "")
