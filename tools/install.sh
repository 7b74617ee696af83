#!/usr/bin/env bash
# Proves and builds the programs and the static library, and installs them under PREFIX.
#
#   tools/install.sh [--library] PREFIX
#
# With --library it leaves the programs out. docs/INSTALL.md says what is where afterwards.
# It wants rt and ar, and writes only under PREFIX and into the folders crates/*/out. It can be run again.
set -u
export LC_ALL=C

# The programs: a crate's name, and the words with which its program ends at once where standard input is empty.
programs=(
    'runsheet'
    'checksheet'
    'trycalls'
    'examples'
    'bench ../../examples/counter.sheet 0'
)

# The crate of the static library.
library=embed

# The last line where something is wrong.
fail() { # sentence [status]
    echo "install: $1" >&2
    exit "${2-1}"
}

# Proves and builds a crate by a command of rt. What that says is shown only where it fails.
build() { # crate command..
    local crate=$1 said
    shift
    echo "install: proves and builds $crate"
    if ! said=$(cd "crates/$crate" && rt "$@" 2>&1 < /dev/null); then
        tail -n 20 <<< "$said" >&2
        fail "$crate was not built"
    fi
}

# Installs files into a folder under PREFIX.
put() { # mode folder file..
    local mode=$1 folder=$prefix/$2
    shift 2
    if ! { mkdir -p "$folder" && install -m "$mode" "$@" "$folder"; }; then
        fail "nothing was installed in $folder"
    fi
    echo "install: $folder: ${*##*/}"
}

# Makes one archive of the library and of the toolchain's functions for memory that it calls.
merge() { # archive
    printf '%s\n' "create $1" "addlib crates/$library/out/lib$library.a" "addlib $heap" save end | ar -M
}

# Writes what pkg-config reads. Its version is that of the format of sheets.
describe() {
    sed -e "s|@PREFIX@|$prefix|" -e "s|@VERSION@|$(sed -n '1s/^sheet=//p' examples/counter.sheet)|" tools/domgrauja.pc.in
}

if [ "${1-}" = --library ]; then
    programs=()
    shift
fi
[[ $# -eq 1 && $1 != -* ]] || fail 'usage: tools/install.sh [--library] PREFIX' 2
for tool in rt ar; do
    command -v "$tool" > /dev/null || fail "$tool is missing; it wants rt, the toolchain's command, and ar"
done
prefix=$(realpath -ms -- "$1") || exit 1
case $prefix in
    *[!A-Za-z0-9/._-]*) fail "$prefix has a sign that is no letter, digit or one of / . _ -" 2 ;;
esac
if ! mkdir -p "$prefix" || [ ! -w "$prefix" ]; then
    fail "$prefix is no folder to write to"
fi
CDPATH='' cd -- "$(dirname "$0")/.." || exit 1
heap=$(dirname "$(rt doc)")/c/liblibc_c.a
[ -f "$heap" ] || fail "the toolchain has no $heap"

# All is built before anything is installed.
build "$library" lib
built=()
for program in "${programs[@]}"; do
    read -r -a words <<< "$program"
    build "${words[0]}" run -- "${words[@]:1}"
    built+=("crates/${words[0]}/out/${words[0]}")
done

made=$(mktemp -d "$prefix/.install.XXXXXX") || fail "$prefix is no folder to write to"
trap 'rm -rf "$made"' EXIT
merge "$made/libdomgrauja.a" || fail 'ar did not make the library'
describe > "$made/domgrauja.pc" || fail 'what pkg-config reads was not written'
[ ${#built[@]} -eq 0 ] || put 755 bin "${built[@]}"
put 644 include include/domgrauja.h
put 644 lib "$made/libdomgrauja.a"
put 644 lib/pkgconfig "$made/domgrauja.pc"
put 644 share/domgrauja README.md
put 644 share/domgrauja/docs docs/*.md
put 644 share/domgrauja/examples examples/*.*
put 644 share/domgrauja/examples/embed/c examples/embed/c/main.c
put 644 share/domgrauja/examples/embed/rust examples/embed/rust/main.rs
echo 'install: ok'
