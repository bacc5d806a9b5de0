#!/bin/sh
# Builds the C programs against the checker's static library.
#
#     LIB=path/to/library.a host/build.sh [PROGRAM ..]
#
# LIB      the static library that exports the otter_ functions
# OUT      where the programs go (build/ beside this script if not given)
# LDLIBS   what else the library has to be linked with
# PROGRAM  worked, compare, untouched, stack, test1, show, bench, slowest: all
#          of them if none is named
#
# Before anything else the header alone and the smallest host are compiled, as
# C99 and, where the compiler can, as C++; a warning is an error there.
#
# The library is x86-64 code. On another machine the programs are built for
# x86-64 too, and statically, so that an emulator needs nothing else.
set -eu

here=$(cd "$(dirname "$0")" && pwd)
out=${OUT:-$here/build}
warnings='-Wall -Wextra -pedantic'
flags="-O2 -std=c99 $warnings"
static=''

if [ -z "${LIB:-}" ] || [ ! -f "$LIB" ]; then
    echo "host/build.sh: LIB has to name the checker's static library" >&2
    exit 1
fi
library=$(cd "$(dirname "$LIB")" && pwd)/$(basename "$LIB")

# The compiler, installed if it is missing and we may, else named.
need() {
    command -v "$1" >/dev/null 2>&1 && return
    if [ "$(id -u)" = 0 ] && command -v apt-get >/dev/null 2>&1; then
        { apt-get update && apt-get install -y "$2" libc6-dev; } >/dev/null 2>&1 || true
    fi
    command -v "$1" >/dev/null 2>&1 && return
    echo "host/build.sh: $1 is missing: install the Debian package $2" >&2
    exit 1
}

if [ "$(uname -m)" = x86_64 ]; then
    compiler=gcc
    need gcc gcc
else
    compiler=x86_64-linux-gnu-gcc
    static=-static
    need x86_64-linux-gnu-gcc gcc-x86-64-linux-gnu
fi

sources_of() {
    case $1 in
    worked) echo worked.c event.c sides.c tables.c reference.c ;;
    compare) echo compare.c random.c event.c sides.c tables.c reference.c ;;
    untouched) echo untouched.c sides.c tables.c reference.c ;;
    stack) echo stack.c sides.c tables.c reference.c -pthread ;;
    show) echo show.c ;;
    test1) echo test1.c tables.c reference.c ;;
    bench) echo bench.c event.c sides.c tables.c reference.c ;;
    slowest) echo slowest.c random.c tables.c reference.c ;;
    *)
        echo "host/build.sh: no program $1" >&2
        exit 1
        ;;
    esac
}

build() {
    sources=$(sources_of "$1")
    (
        cd "$here"
        # shellcheck disable=SC2086 # flags and sources are lists of words
        $compiler $flags $static $sources "$library" ${LDLIBS:-} -o "$out/$1"
    )
}

# small_host PROGRAM OPTION ..
small_host() {
    program=$1
    shift
    # shellcheck disable=SC2086 # warnings are a list of words
    {
        echo '#include "ottersprawl.h"' | $compiler -I"$here" $warnings -Werror -fsyntax-only "$@" -
        $compiler $warnings -Werror $static "$@" "$here/smallest.c" -x none "$library" ${LDLIBS:-} -o "$out/$program"
    }
}

mkdir -p "$out"
out=$(cd "$out" && pwd)
small_host smallest -x c -std=c99
if $compiler -x c++ -fsyntax-only /dev/null 2>/dev/null; then
    small_host smallest-c++ -x c++
fi
[ $# -gt 0 ] || set -- worked compare untouched stack test1 show bench slowest
for program in "$@"; do
    build "$program"
done
