#!/bin/sh
# Makes the wheel, which pip installs: the module for Python with the library inside, for each level it was built for.
#
#     packaging/wheel.sh LIBRARY FOLDER      with the library in LIBRARY, in FOLDER
#
# setuptools makes it by python/pyproject.toml and setup.py, of the first Python that can: python3, or that of the system. It is the
# same bytes each time, with the time of the last commit (without git: of now), or SOURCE_DATE_EPOCH where it is set.
set -eu
umask 022
cd "$(dirname "$0")/.."
library=$1 out=$2
export SOURCE_DATE_EPOCH="${SOURCE_DATE_EPOCH:-$(git log -1 --format=%ct 2>/dev/null || date +%s)}"
work=$(mktemp -d)
trap 'rm -rf "$work"' EXIT
trap 'exit 130' INT
trap 'exit 143' HUP TERM
# A run that does not end well leaves no wheel, and one that does no other: they would be of older sources.
rm -f "$out"/pikhsen-*.whl

can='import setuptools as it, pip
it.Distribution().get_command_class("bdist_wheel")
exit(int(it.__version__.split(".")[0]) < 61)'
for python in python3 /usr/bin/python3 ''; do
    ! "${python:-false}" -c "$can" >/dev/null 2>&1 || break
done
if test -z "$python"; then
    echo 'packaging/wheel.sh: no Python has pip, setuptools from 61 on and wheel (in Debian: python3-pip)' >&2
    exit 2
fi

install -D -m 644 -t "$work/wheel" python/pyproject.toml python/setup.py VERSION
install -D -m 644 -t "$work/wheel/pikhsen" python/pikhsen/__init__.py python/pikhsen/_files.py
install -m 644 -T /dev/null "$work/wheel/pikhsen/py.typed"
install -m 644 -t "$work/wheel/pikhsen" "$library/libpikhsen.so.0"
# That for a higher level, where it was built.
higher=glibc-hwcaps/x86-64-v3/libpikhsen.so.0
test ! -f "$library/$higher" || install -D -m 644 -T "$library/$higher" "$work/wheel/pikhsen/$higher"
"$python" -m pip wheel --quiet --disable-pip-version-check --no-index --no-deps --no-build-isolation \
    --wheel-dir "$out" "$work/wheel"
