#!/bin/sh
# Puts the programs, their manual pages, completions and documents below a folder, or takes them away from there.
#
#     packaging/install.sh install FOLDER PROGRAMS [LIBRARY]    below FOLDER, as /usr/local, what these folders have
#     packaging/install.sh uninstall FOLDER
#     packaging/install.sh check FOLDER      refuses what both would refuse, and does nothing
#
# Names that do not begin with a slash count from the repository.
#
# share/doc/pikhsen/installed.sha256 below FOLDER lists what was put there: files with their sums, for `sha256sum -c`,
# and in its comments links, and folders that were not there before. `uninstall` takes away what is listed and still is
# what it was, and says what it leaves; `install` does that with what an older list has and it does not put there.
#
# PREFIX is what pikhsen.pc says of where it lies; FOLDER where it is not set. It begins with a slash. Below FOLDER,
# where these are not set: PIKHSEN_ZSH is where completions of zsh go, share/zsh/site-functions; PIKHSEN_LIB where the
# library goes, lib; PIKHSEN_PYTHON where its module for Python goes, share/pikhsen. With PIKHSEN_SAY it says what it
# installed, and what shells and Python need to find it.
set -eu
umask 022
export LC_ALL=C
cd "$(dirname "$0")/.."
what=$1 below=$2 programs=${3:-bin} library=${4:-}
prefix=${PREFIX-$below}
zsh=${PIKHSEN_ZSH:-share/zsh/site-functions} lib=${PIKHSEN_LIB:-lib} python=${PIKHSEN_PYTHON:-share/pikhsen}
list=share/doc/pikhsen/installed.sha256

# tell WHAT: says it in one line. refuse WHY: does so, and ends.
tell() { printf 'packaging/install.sh: %s\n' "$1" >&2; }
refuse() { tell "$1"; exit 2; }

# inside NAME: whether it lies below the folder, by no dots and by no link that leads out of there.
inside() { case $(realpath -m "$below/${1%/*}")/ in "${real%/}"/*) ;; *) return 1 ;; esac; }

# state FILE: what the list says of it before its name; nothing where it is not there.
state() {
    if test -L "$1"; then
        echo "# link to $(readlink "$1")"
    elif test -f "$1"; then
        sha256sum <"$1" | cut -c -64
    elif test -e "$1"; then
        echo '# folder' # or what else is neither
    fi
}

# taken_away LIST: takes away the files and links of a list that are what they were, and says which it leaves, and why.
taken_away() {
    while IFS= read -r line || test -n "$line"; do
        name=${line#*  } why='it does not lie there'
        case $line in '# folder  '*) continue ;; esac
        ! inside "$name" || case $(state "$below/$name") in
        '') why='it is not there' ;;
        "${line%%  *}")
            rm -f "$below/$name"
            test "$what" = uninstall || tell "took away $name below $below, which this install does not put there"
            cache=${name%/*}/__pycache__ module=${name##*/}
            if test "$module" != "${module%.py}" && inside "$cache/it"; then # what Python compiled of it
                rm -f "$below/$cache/${module%.py}".*.pyc
                rmdir "$below/$cache" 2>/dev/null || true
            fi
            continue
            ;;
        *) why='it was changed since' ;;
        esac
        tell "left $name below $below: $why"
    done <"$1"
}

case $what in install | uninstall | check) ;; *) refuse "install, uninstall or check, not $what" ;; esac
case $prefix$below in *'
'*) refuse 'PREFIX, or FOLDER, has a newline in it' ;; esac
case ${below:+$prefix} in /*) ;; *) refuse "'$prefix' does not begin with /, as PREFIX, or else FOLDER, must" ;; esac
test "$what" != check || exit 0
real=$(realpath -m "$below")
work=$(mktemp -d)
making=$work/none # the file that is being put into its place
trap 'rm -rf "$work"; rm -f "$making"' EXIT
trap 'exit 130' INT
trap 'exit 143' HUP TERM
{ inside "$list" && cat "$below/$list"; } >"$work/older" 2>/dev/null || test "$what" = install ||
    refuse "no list of what was installed: $below/$list"
if test "$what" = uninstall; then
    taken_away "$work/older"
    rm -f "$below/$list"
    sed -n 's/^# folder  //p' "$work/older" | sort -r | while IFS= read -r name; do
        ! inside "$name" || rmdir "$below/$name" 2>/dev/null || true
    done
    exit
fi

# place MODE FILE FOLDER [NAME]: a file, with its permissions, into a folder, by its own name or by another. All are
# made in a folder apart, and go from there to their places once they are listed.
place() { install -D -m "$1" -T "$2" "$work/new/$3/${4:-${2##*/}}"; }

# escaped TEXT: as sed takes it between the second and the third | of s|||.
escaped() { printf '%s\n' "$1" | sed 's/[&|\\]/\\&/g'; }

# page FILE FOLDER: a manual page, which names documents by where they are installed.
page() {
    sed "s|/usr/local/share/doc/|$(escaped "$prefix")/share/doc/|" "$1" >"$work/page"
    place 644 "$work/page" "$2" "${1##*/}"
}

names=$(cut -d' ' -f1 packaging/programs)
for name in $names; do
    place 755 "$programs/$name" bin
    place 644 "completions/zsh/_$name" "$zsh"
done
place 755 packaging/scrypt-ask bin
for name in $names scrypt-ask; do
    page "man/$name.1" share/man/man1
    place 644 "completions/bash/$name" share/bash-completion/completions
done
page man/pikhsen-compat.7 share/man/man7
if test -n "$library"; then
    place 644 "$library/libpikhsen.a" "$lib"
    place 644 "$library/libpikhsen.so.0" "$lib"
    # The linker's name for it is a link, which is made here alone: the gate refuses links at the top.
    ln -s libpikhsen.so.0 "$work/new/$lib/libpikhsen.so"
    place 644 include/pikhsen.h include
    page man/pikhsen.3 share/man/man3
    # py.typed tells checkers that the module has types. It counts in a folder of the module's own alone.
    place 644 python/pikhsen/__init__.py "$python/pikhsen"
    place 644 python/pikhsen/_files.py "$python/pikhsen"
    place 644 /dev/null "$python/pikhsen" py.typed
    sed "s|@PREFIX@|$(escaped "$prefix")|; s|@LIB@|$(escaped "$lib")|; s|@VERSION@|$(cat VERSION)|" \
        packaging/pikhsen.pc.in >"$work/pc"
    place 644 "$work/pc" "$lib/pkgconfig" pikhsen.pc
    # Where they were built: that for a higher level of processors, for which the loader looks there by itself; and what
    # stands in place of other libraries (make compat), in a folder where no program looks by itself.
    hwcaps=glibc-hwcaps/x86-64-v3
    compat=pikhsen/compat
    for file in $hwcaps/libpikhsen.so.0 $compat/libargon2.so.1 $compat/pikhsen.so; do
        test ! -f "$library/$file" || place 644 "$library/$file" "$lib/${file%/*}"
    done
    if test -f "$library/$compat/pikhsen.so"; then
        case $prefix$lib in *[\#\$\\\'\"\`]*)
            refuse "openssl.cnf can't name a folder with one of # \$ \\ ' \" \`, as $prefix/$lib, for pikhsen.so" ;;
        esac
        sed "s|@FOLDER@|$(escaped "$prefix/$lib/$compat")|" compat/openssl/openssl.cnf >"$work/openssl.cnf"
        place 644 "$work/openssl.cnf" "$lib/$compat"
    fi
fi
for file in README.md CHANGELOG.md docs/*.md docs/*.svg docs/*.tsv docs/programs/*; do
    place 644 "$file" share/doc/pikhsen "$file"
done

# Until all is there the list has what the older one has, too. Folders that were made stay in it.
(cd "$work/new" && find . -mindepth 1 -printf '%P\n' | sort) >"$work/names"
grep '^# folder  ' "$work/older" >"$work/list" || true
while IFS= read -r name; do
    inside "$name" || refuse "$name would not lie below $below: a link leads out of there"
    test -d "$work/new/$name" && test -d "$below/$name" ||
        printf '%s  %s\n' "$(state "$work/new/$name")" "$name" >>"$work/list"
done <"$work/names"
sort -u "$work/older" "$work/list" >"$work/both"
install -D -m 644 -T "$work/both" "$below/$list"
while IFS= read -r name; do
    if test -d "$work/new/$name"; then
        mkdir -p "$below/$name"
    else # beside its place at first: what lies there stays until the new file is whole
        making=$below/$name.new
        rm -f "$making"
        cp -P --preserve=mode -T "$work/new/$name" "$making"
        mv -fT "$making" "$below/$name"
    fi
done <"$work/names"
awk 'NR == FNR { put[$0]; next } !(substr($0, index($0, "  ") + 2) in put)' "$work/names" "$work/older" >"$work/gone"
taken_away "$work/gone"
install -m 644 -T "$work/list" "$below/$list"

test -n "${PIKHSEN_SAY:-}" || exit 0
echo "installed below $prefix: $(printf '%s, ' $names)scrypt-ask, with manual pages, completions and documents"
test -z "$library" || echo "and the library: pikhsen.h, libpikhsen.a and libpikhsen.so.0 in $lib, and the Python module"
case :$PATH: in *":$prefix/bin:"*) ;; *) echo "add it to PATH:    PATH=\"$prefix/bin:\$PATH\"" ;; esac
case $prefix in /usr | /usr/local) ;; *)
    echo "zsh completes after these lines of ~/.zshrc:"
    echo "    fpath=(\"$prefix/$zsh\" \$fpath); autoload -Uz compinit; compinit"
    ;;
esac
test -z "$library" || echo "Python finds its module by    export PYTHONPATH=\"$prefix/$python\""
