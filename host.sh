# shellcheck shell=bash
# Sourced by the scripts. The library and its programs are for x86-64 Linux: what compiles for it on this machine, and what runs its programs. On
# x86-64 that is gcc, g++ and nothing; on another processor it is the cross compilers and the emulator that Debian has.
x86_cc=gcc
x86_cxx=g++
emulator=()
if [ "$(uname -m)" != x86_64 ]; then
    x86_cc=x86_64-linux-gnu-gcc
    x86_cxx=x86_64-linux-gnu-g++
    emulator=(qemu-x86_64 -L /usr/x86_64-linux-gnu)
fi

# What rt makes of the crates: the archive that C links, and a program.
# shellcheck disable=SC2034 # who sources this uses it
library=crates/ringkit_c/out/libringkit_c.a
program_of() { echo "crates/$1/out/$1"; }

# Whether programs for x86-64 are emulated here.
emulated() { [ ${#emulator[@]} -gt 0 ]; }

# The package that has a tool.
package_of() {
    case $1 in
    x86_64-linux-gnu-gcc) echo gcc-x86-64-linux-gnu ;;
    x86_64-linux-gnu-g++) echo g++-x86-64-linux-gnu ;;
    qemu-x86_64) echo qemu-user ;;
    nm | size) echo binutils ;;
    man) echo man-db ;;
    *) echo "$1" ;;
    esac
}

# A sentence for each of these tools that is not on the path: where it comes from.
missing() {
    local tool
    for tool; do
        ! command -v "$tool" >/dev/null || continue
        case $tool in
        rt) echo "there is no rt: it comes with the Rattle toolchain, rattle-kit-13f; put the folder bin/ of the kit on the path" ;;
        python3) echo "there is no python3, which runs rt and the tests of the pages: install the package python3" ;;
        rustc) echo "there is no rustc: install the package rustc, or take Rust's own from rustup" ;;
        qemu-x86_64) echo "there is no qemu-x86_64, which runs programs for x86-64 on this processor: install the package $(package_of "$tool")" ;;
        *) echo "there is no $tool: install the package $(package_of "$tool")" ;;
        esac
    done
}

# Says on standard error, as the script that is named first, which of the tools behind it are missing; false where one is.
need() {
    local lacking
    lacking=$(missing "${@:2}")
    [ -n "$lacking" ] || return 0
    echo "$1: ${lacking//$'\n'/$'\n'$1: }" >&2
    return 1
}

# Gives a superuser of a Debian machine the packages of these tools that are missing, as the script
# that is named first; for anybody else it does nothing.
install_missing() {
    local script=$1 tool packages
    mapfile -t packages < <(for tool in "${@:2}"; do
        [ "$tool" = rt ] || command -v "$tool" >/dev/null || package_of "$tool"
    done | sort -u)
    [ ${#packages[@]} -gt 0 ] && [ "$(id -u)" -eq 0 ] && command -v apt-get >/dev/null || return 0
    # a compiler compiles nothing without the headers, which gcc only recommends
    [[ " ${packages[*]} " != *" gcc "* ]] || packages+=(libc6-dev)
    echo "$script: installs what is missing here: ${packages[*]}" >&2
    { apt-get update && DEBIAN_FRONTEND=noninteractive apt-get install -y "${packages[@]}"; } >&2
}

# The packages that tests want on another processor than x86-64, and whose tools are not here.
missing_packages() {
    local tool
    emulated || return 0
    for tool in "$x86_cc" "$x86_cxx" "${emulator[0]}"; do
        command -v "$tool" >/dev/null || package_of "$tool"
    done
}

# Ends a test that cannot do without them.
need_packages() {
    local missing
    missing=$(missing_packages)
    [ -n "$missing" ] || return 0
    echo "error: on this processor, $(uname -m), programs for x86-64 are compiled and run with packages that are missing: ${missing//$'\n'/, }"
    exit 1
}

# Takes the emulator that rt brings along to run what it has built, where it does: who plans a ring needs no other.
take_emulator_of_rt() {
    local home tools
    emulated && command -v rt >/dev/null || return 0
    home=${RATTLE_HOME:-$(dirname "$(dirname "$(readlink -f "$(command -v rt)")")")}
    tools=$home/on/$(uname -m)/toolchain
    [ ! -x "$tools/bin/qemu-x86_64" ] || emulator=("$tools/bin/qemu-x86_64" "$tools/lib/ld-linux-x86-64.so.2" --library-path "$tools/lib")
}

# Makes $1 a script that runs the words behind it, and behind these what it is given.
script() {
    printf '#!/usr/bin/env bash\nexec%s "$@"\n' "$(printf ' %q' "${@:2}")" >"$1"
    chmod +x "$1"
}

# Has programs for x86-64, named by whole paths, start by their names on every processor: one that is emulated makes room for a script.
startable() {
    local program
    emulated || return 0
    for program; do
        mv "$program" "$program.x86-64"
        script "$program" "${emulator[@]}" "$program.x86-64"
    done
}
