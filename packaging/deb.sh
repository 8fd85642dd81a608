#!/bin/sh
# Makes the packages for Debian in a folder, with the programs in bin/x86-64-v2 and the library in another folder.
#
#     packaging/deb.sh LIBRARY FOLDER
#     packaging/deb.sh LIBRARY FOLDER x86-64-v3    and one more of the programs in bin/x86-64-v3, of the version ..+v3
#
#     pikhsen            the programs, their pages, completions and documents
#     libpikhsen0        the shared library
#     libpikhsen-dev     what programs in C are built with: the header, both ways to link, pikhsen.pc, the page; and for
#                        other languages docs/LIBRARY.md and its examples
#     python3-pikhsen    the module for Python
#     pikhsen-libargon2  libargon2.so.1 over the library, in place of Debian's libargon2-1
#     pikhsen-openssl    a provider for OpenSSL's scrypt, and the openssl.cnf that loads it
#
# The last two are made of what packaging/compat.sh left in pikhsen/compat below LIBRARY. All are the same bytes each
# time, with the time of the last commit (without git: of now), or SOURCE_DATE_EPOCH where it is set. Programs and
# library are not stripped: they are the bytes that the tests run.
set -eu
umask 022
cd "$(dirname "$0")/.."
library=$1 out=$2 higher=${3:-} version=$(cat VERSION)
told=$version
maintainer='The authors of Pikhsen <pikhsen@localhost>'
export SOURCE_DATE_EPOCH="${SOURCE_DATE_EPOCH:-$(git log -1 --format=%ct 2>/dev/null || date +%s)}"
work=$(mktemp -d)
# A run that does not end well leaves no package, older ones of these names neither.
trap 'status=$?; rm -rf "$work"; test $status = 0 || rm -f "$out"/*pikhsen*_"$version"[_+]*.deb' EXIT
trap 'exit 130' INT
trap 'exit 143' HUP TERM
# One that this run does not make would be of older sources.
rm -f "$out/pikhsen_$version"+*.deb
libraries=lib/x86_64-linux-gnu
modules=lib/python3/dist-packages

PREFIX=/usr PIKHSEN_LIB=$libraries PIKHSEN_PYTHON=$modules PIKHSEN_ZSH=share/zsh/vendor-completions \
    packaging/install.sh install "$work/usr" bin/x86-64-v2 "$library"
# dpkg has a list of its own, with the sums of pages that are packed.
rm "$work/usr/share/doc/pikhsen/installed.sha256"
gzip -9n "$work"/usr/share/man/man*/*

# contents PACKAGE FILE..: these files, or folders, are the package's.
contents() {
    package=$1 && shift
    mkdir -p "$work/$package/DEBIAN"
    for file in "$@"; do
        folder=$work/$package/usr/$(dirname "$file")
        mkdir -p "$folder"
        mv "$work/usr/$file" "$folder"
    done
}

# The package on the newest version of the C library that these files of it ask for.
libc() { echo "libc6 (>= $(objdump -T "$@" | grep -o 'GLIBC_[0-9.]*' | sort -Vu | tail -n 1 | cut -d_ -f2))"; }

# What a folder takes, in KiB, as Debian counts it: each file rounded up, and 1 for all else. Every file system says so.
size() {
    find "$1" \( -type f -printf '%s\n' \) -o -printf '1\n' | awk '{ kib += int(($1 + 1023) / 1024) } END { print kib }'
}

# passed_over PACKAGE: what lintian would say, and why it is so, is told to it. Standard input has its lines.
passed_over() {
    overrides=$work/$1/usr/share/lintian/overrides
    mkdir -p "$overrides"
    sed "/^#/!s/^/$1: /" >"$overrides/$1"
}

# build PACKAGE ARCHITECTURE: makes the package. What is its own in `control` comes from standard input.
build() {
    root=$work/$1
    documents=$root/usr/share/doc/$1
    install -D -m 644 -t "$documents" CHANGELOG.md
    printf '%s\n' "pikhsen ($told) unstable; urgency=medium" '' '  * CHANGELOG.md says what changed.' '' \
        " -- $maintainer  $(LC_ALL=C date -Rud "@$SOURCE_DATE_EPOCH")" | gzip -9n >"$documents/changelog.gz"
    {
        printf '%s: %s\n' Package "$1" Source pikhsen Version "$told" Architecture "$2" Maintainer "$maintainer" \
            Priority optional Installed-Size "$(size "$root/usr")"
        cat
    } >"$root/DEBIAN/control"
    (cd "$root" && find usr -type f | LC_ALL=C sort | xargs md5sum) >"$root/DEBIAN/md5sums"
    dpkg-deb -Zxz --root-owner-group --build "$root" "$out/$1_${told}_$2.deb"
}

contents pikhsen bin share/doc share/man/man1 share/man/man7 share/bash-completion share/zsh
# That for x86-64-v3 is beside the other, where the machine at hand could build it.
hwcaps=$libraries/glibc-hwcaps
test ! -d "$work/usr/$hwcaps" || contents libpikhsen0 "$hwcaps"
contents libpikhsen0 "$libraries/libpikhsen.so.0"
compat=$libraries/pikhsen/compat
mv "$work/usr/$compat/libargon2.so.1" "$work/usr/$libraries"
contents pikhsen-libargon2 "$libraries/libargon2.so.1"
contents pikhsen-openssl "$libraries/pikhsen"
contents libpikhsen-dev include "$libraries" share/man/man3
install -D -m 644 -t "$work/libpikhsen-dev/usr/share/doc/libpikhsen-dev" docs/LIBRARY.md
install -D -m 644 -t "$work/libpikhsen-dev/usr/share/doc/libpikhsen-dev/programs" docs/programs/*
contents python3-pikhsen "$modules"

names=$(cut -d' ' -f1 packaging/programs)
{
    echo '# These are the bytes that the tests ran.'
    printf 'unstripped-binary-or-object [usr/bin/%s]\n' $names
    echo '# Of C they have only the heap and one call more, in which there is nothing to fortify.'
    printf 'hardening-no-fortify-functions [usr/bin/%s]\n' $names
    echo '# POSIX has it since 2024, and the shells that may be /bin/sh had it before.'
    echo "bash-term-in-posix-shell 'ulimit' [usr/bin/scrypt-ask:*]"
} | passed_over pikhsen
{
    echo '# These are the bytes that the tests called.'
    (cd "$work/libpikhsen0" && find usr -name libpikhsen.so.0 -printf 'unstripped-binary-or-object [%p]\n' | LC_ALL=C sort)
} | passed_over libpikhsen0

# programs LEVEL: makes the package of the programs, which are for processors of this level.
programs() {
    build pikhsen amd64 <<END
Section: utils
Depends: $(cd "$work/pikhsen/usr/bin" && libc $names)
Conflicts: argon2, scrypt
Replaces: argon2, scrypt
Description: scrypt, argon2 and argon2-verify, proved in Rattle
 scrypt keeps files under a passphrase, in the format of Tarsnap's scrypt;
 argon2 hashes passwords (RFC 9106), and argon2-verify tells whether a password
 belongs to a stored hash. Their code is proved to compute what the standards
 define; that the system does its part is tested. scrypt-ask, a shell script,
 asks for the passphrase at the terminal.
 .
 Two of the programs have the names of those in Debian's packages scrypt and
 argon2, so that this package conflicts with both. It is built for processors
 of the level $1 and above.
END
}
programs x86-64-v2

echo 'activate-noawait ldconfig' >"$work/libpikhsen0/DEBIAN/triggers"
echo "libpikhsen 0 libpikhsen0 (>= $version)" >"$work/libpikhsen0/DEBIAN/shlibs"
# Each name that is exported, with the version that had it first: all of them the first version.
{
    printf '%s\n' 'libpikhsen.so.0 libpikhsen0 #MINVER#' '* Build-Depends-Package: libpikhsen-dev'
    objdump -T "$work/libpikhsen0/usr/$libraries/libpikhsen.so.0" |
        awk '$2 == "g" && $(NF - 1) == "PIKHSEN_0" { print " " $NF "@PIKHSEN_0 0.1.0" }' | LC_ALL=C sort
} >"$work/libpikhsen0/DEBIAN/symbols"
build libpikhsen0 amd64 <<END
Section: libs
Multi-Arch: same
Depends: $(libc "$work/libpikhsen0/usr/$libraries/libpikhsen.so.0")
Description: Argon2, scrypt and scrypt's encrypted files, proved in Rattle
 The shared library: hashes of passwords (RFC 9106), keys (RFC 7914), and files
 in the format of Tarsnap's scrypt. Its functions are proved to compute what the
 standards define. It is built for processors of the level x86-64-v2 and above.
END

build libpikhsen-dev amd64 <<END
Section: libdevel
Multi-Arch: same
Depends: libpikhsen0 (= $version)
Description: Argon2, scrypt and scrypt's encrypted files (development files)
 What programs in C are built with that call libpikhsen: header, static library,
 the flags for pkg-config, the manual page, pikhsen(3), and LIBRARY.md with
 examples in C, Go, Rust, PHP, Node and Python.
END

# What Debian's own packages do, so that no compiled module is left behind.
for script in postinst:py3compile prerm:py3clean; do
    file=$work/python3-pikhsen/DEBIAN/${script%:*} program=${script#*:}
    printf '%s\n' '#!/bin/sh' 'set -e' "! command -v $program >/dev/null || $program -p python3-pikhsen" >"$file"
    chmod 755 "$file"
done
build python3-pikhsen all <<END
Section: python
Depends: python3:any (>= 3.9), libpikhsen0 (>= $version)
Description: Argon2, scrypt and scrypt's encrypted files, from Python
 The module pikhsen, which calls libpikhsen: hashes of passwords, the test of a
 password, keys, and encrypted files in the format of Tarsnap's scrypt.
END

# In place of this version of Debian's, that of Debian 12: apt takes either for what other packages depend on.
echo 'activate-noawait ldconfig' >"$work/pikhsen-libargon2/DEBIAN/triggers"
echo 'libargon2 1 libargon2-1' >"$work/pikhsen-libargon2/DEBIAN/shlibs"
passed_over pikhsen-libargon2 <<'END'
# It has the name that programs were linked to, and they are built with Debian's libargon2-dev.
package-name-doesnt-match-sonames libargon2-1
no-symbols-control-file *
END
build pikhsen-libargon2 amd64 <<END
Section: libs
Multi-Arch: same
Depends: $(libc "$work/pikhsen-libargon2/usr/$libraries/libargon2.so.1")
Suggests: pikhsen
Provides: libargon2-1 (= 0~20171227-0.3+deb12u1)
Conflicts: libargon2-1
Replaces: libargon2-1
Description: libargon2.so.1 over Argon2, proved in Rattle
 Programs that are linked to libargon2, as PHP and cryptsetup are, hash by the
 functions of libpikhsen. It takes the place of libargon2-1; who installs that
 goes back. Between its interface and what is proved stand lines in C that are
 tested, not proved. It is built for processors of the level x86-64-v2 and
 above.
END
if test -f "$work/pikhsen-openssl/usr/$compat/pikhsen.so"; then
    build pikhsen-openssl amd64 <<END
Section: libs
Depends: $(libc "$work/pikhsen-openssl/usr/$compat/pikhsen.so"), libssl3
Suggests: pikhsen
Description: OpenSSL's scrypt, proved in Rattle
 A provider of OpenSSL 3: programs that ask OpenSSL for scrypt get that of
 libpikhsen, where OPENSSL_CONF names the openssl.cnf of this package. Nothing
 else changes by its installation. Between OpenSSL and what is proved stand
 lines in C that are tested, not proved. It is built for processors of the level
 x86-64-v2 and above.
END
fi

# That for a higher level is told by its version, which apt takes for a newer one.
if test -n "$higher"; then
    told=$version+${higher##*-}
    for name in $names; do install -m 755 -t "$work/pikhsen/usr/bin" "bin/$higher/$name"; done
    programs "$higher"
fi
