# Sourced by the scripts: how x86-64 programs are run here. The toolchain compiles for x86-64; an emulator for another machine is
# taken from it if it brings one.
command -v rt >/dev/null || {
    echo "the Rattle toolchain's command rt has to be on PATH" >&2
    exit 1
}
tools=$(cd "$(dirname "$(rt doc)")" && pwd)/toolchain
emulator=$tools/bin/qemu-x86_64
[ -x "$emulator" ] || emulator=''

# a C program of host/
host_program() {
    ${emulator:+"$emulator"} "$@"
}

# a program of crates/, under the toolchain's own C library
program() {
    ${emulator:+"$emulator"} "$tools/lib/ld-linux-x86-64.so.2" --library-path "$tools/lib" "$@"
}
