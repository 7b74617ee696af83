#!/usr/bin/env bash
# Tries an installed copy. It compiles and links the examples in C and in Rust as pkg-config tells, runs both, and compares what they print with examples/embed/stdout.
# It runs the installed runsheet on counter.sheet, and compares what that prints with crates/runsheet/stdout.
#
#   tools/embed.sh [--library] [PREFIX]
#
# PREFIX is a folder that tools/install.sh has filled. Without one, this installs into a folder that is gone again afterwards. With --library no program is installed or run.
# It wants pkg-config, cc and rustc, from 1.85 on, and where it installs rt and ar too. Its last line is `embed: ok`, and its status 0, where all printed what they must.
set -u

# The last line where something is wrong.
fail() { # sentence [status]
    echo "embed: $1" >&2
    exit "${2-1}"
}

# Compares what a command prints with what it must, which stands in a file.
compare() { # name file command..
    local name=$1 wanted=$2
    shift 2
    "$@" > "$made/said" || fail "$name failed"
    diff "$wanted" "$made/said" || fail "$name printed something else"
    echo "embed: $name printed what it must"
}

option=
if [ "${1-}" = --library ]; then
    option=--library
    shift
fi
[[ $# -le 1 && ${1-} != -* ]] || fail 'usage: tools/embed.sh [--library] [PREFIX]' 2
for tool in cc rustc; do
    command -v "$tool" > /dev/null || fail "$tool is missing; the examples need cc and rustc"
done
finder=$(command -v pkg-config || command -v pkgconf) || fail 'pkg-config is missing; it comes with the package pkg-config or pkgconf'
made=$(mktemp -d) || exit 1
trap 'rm -rf "$made"' EXIT
if [ $# -eq 1 ]; then
    prefix=$(CDPATH='' cd -- "$1" && pwd) || fail "there is no folder $1"
fi
CDPATH='' cd -- "$(dirname "$0")/.." || exit 1
if [ $# -eq 0 ]; then
    prefix=$made/installed
    tools/install.sh ${option:+"$option"} "$prefix" || fail 'nothing was installed'
fi

export PKG_CONFIG_PATH=$prefix/lib/pkgconfig
"$finder" --exists --print-errors domgrauja || fail "pkg-config finds no domgrauja in $prefix"
read -r -a headers <<< "$("$finder" --cflags domgrauja)"
read -r -a libraries <<< "$("$finder" --libs domgrauja)"
examples=$prefix/share/domgrauja/examples

cc -std=c11 -O2 -Wall -Wextra -Werror "${headers[@]}" "$examples/embed/c/main.c" "${libraries[@]}" -o "$made/c" || fail 'the example in C was not built'
compare 'the example in C' examples/embed/stdout "$made/c" "$examples/readings.sheet"
rustc --edition 2024 -O -D warnings "$examples/embed/rust/main.rs" "${libraries[@]}" -o "$made/rust" || fail 'the example in Rust was not built'
compare 'the example in Rust' examples/embed/stdout "$made/rust" "$examples/readings.sheet"

if [ -z "$option" ]; then
    compare runsheet crates/runsheet/stdout "$prefix/bin/runsheet" "$examples/counter.sheet"
fi
echo 'embed: ok'
