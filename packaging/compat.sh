#!/bin/sh
# Makes what takes the place of libraries that programs call already, over the static library in a folder:
#
#     packaging/compat.sh LIBRARY FOLDER      in FOLDER, of LIBRARY/libpikhsen.a
#
#     libargon2.so.1    the reference implementation's library of Argon2
#     pikhsen.so        a provider of OpenSSL 3, where its headers are installed (Debian: libssl-dev); openssl.cnf loads it
#
# Both need no libpikhsen.so.0, and show nothing of it. They are the same bytes each time, for x86-64-v2 and above.
set -eu
cd "$(dirname "$0")/.."
library=$1 folder=$2
mkdir -p "$folder"
case $(realpath "$folder") in *[\#\$\\\'\"\`]* | *'
'*) echo "packaging/compat.sh: openssl.cnf can't name a folder with a newline or one of # \$ \\ ' \" \`" >&2 && exit 2 ;; esac
# What an earlier run made, and what this one made where it does not end well, is taken away.
taken_away() { rm -f "$folder/libargon2.so.1" "$folder/pikhsen.so" "$folder/openssl.cnf"; }
trap 'status=$?; test $status = 0 || taken_away' EXIT
taken_away

# made FILE SOURCE WORD..: compiles and links as lib.sh does, with what these words say.
made() {
    file=$folder/$1 source=$2
    shift 2
    cc -std=c99 -D_DEFAULT_SOURCE -O2 -D_FORTIFY_SOURCE=2 -fstack-protector-strong -Wall -Wextra -Werror -fPIC -Iinclude \
        -shared -s -nostartfiles -Wl,-z,defs -Wl,-z,now -Wl,-z,noexecstack -Wl,--build-id=none -Wl,-Bsymbolic-functions \
        -o "$file" "$source" "$library/libpikhsen.a" "$@"
    objcopy --remove-section=.comment "$file"
}

made libargon2.so.1 compat/libargon2/libargon2.c -Wl,-soname,libargon2.so.1 \
    -Wl,--version-script=compat/libargon2/libargon2.map
if echo '#include <openssl/core_dispatch.h>' | cc -fsyntax-only -x c - 2>/dev/null; then
    made pikhsen.so compat/openssl/provider.c -Wl,--version-script=compat/openssl/provider.map -lcrypto
    sed "s|@FOLDER@|$(realpath "$folder" | sed 's/[&|\\]/\\&/g')|" compat/openssl/openssl.cnf >"$folder/openssl.cnf"
else
    echo 'packaging/compat.sh: no headers of OpenSSL 3, so its provider is not made' >&2
fi
