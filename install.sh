#!/bin/sh
# Installs the proved programs and their manual pages below PREFIX, which is /usr/local if it is not set. A program that is missing
# or older than its sources is proved and built first. DESTDIR, if set, comes before PREFIX.
set -eu

here=$(dirname -- "$(readlink -f -- "$0")")
prefix=${DESTDIR-}${PREFIX:-/usr/local}

"$here/dnscanon" make 0 >/dev/null
"$here/dnslines" normal </dev/null
mkdir -p "$prefix/bin" "$prefix/share/man/man1"
for program in dnscanon dnslines; do
    install -m 755 "$here/crates/$program/out/$program" "$prefix/bin/$program"
    install -m 644 "$here/man/$program.1" "$prefix/share/man/man1/$program.1"
    echo "installed $prefix/bin/$program and $prefix/share/man/man1/$program.1"
done
