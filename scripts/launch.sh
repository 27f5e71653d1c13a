#!/bin/sh
# Runs the proved program whose name is the first word, with the other words. If it is missing, or older than its sources or the
# toolchain, it is proved and built first, which writes nothing to standard output. `--help` or `-h` alone shows the manual page.

here=$(dirname -- "$(readlink -f -- "$0")")/.. || exit 126
name=$1
shift
out=$here/crates/$name/out
program=$out/$name
current=$out/current
manual=$here/man/$name.1
toolchain=$(command -v rt)

# The program is current if it was built after the last change of a source and of the toolchain. Without a toolchain only the
# sources count.
is_current() {
    [ -x "$program" ] && [ -f "$current" ] &&
        [ -z "$(find -L ${toolchain:+"$toolchain"} "$here/crates.txt" "$here/crates" -name out -prune -o \
            ! -path '*/must-fail*' ! -path '*_tests/*' ! -path '*/nelgvasti/*' -newer "$current" -print)" ]
}

# The manual page as plain text, without the marks of its layout.
plain_manual() {
    sed -e '/^\.D[dt]\|^\.Os\|^\.[BE][dl]/d' -e 's/^\.Pp$//' -e 's/^\.Sh \(.*\)/\n\1/' -e 's/^\.It \(.*\)/\n  \1/' \
        -e "s/^\\.Nm\$/$name/" -e 's/^\.Nd /- /' -e 's/^\.[A-Z][a-z] //' -e 's/\\e/\\/g' -e 's/\\&//g' "$manual"
}

if [ $# = 1 ] && { [ "$1" = --help ] || [ "$1" = -h ]; }; then
    if command -v man >/dev/null 2>&1 && man "$manual" 2>/dev/null; then
        exit 0
    fi
    plain_manual
    exit
fi

if ! is_current; then
    if [ -z "$toolchain" ]; then
        echo "$name: the program has to be built, and there is no rt on the path to prove and build it" >&2
        exit 127
    fi
    echo "$name: proving and building the program, which takes minutes the first time" >&2
    if ! sh "$here/scripts/build.sh" "$name" </dev/null >/dev/null; then
        echo "$name: the program was not built" >&2
        exit 126
    fi
fi

exec "$program" "$@"
