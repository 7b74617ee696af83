#!/usr/bin/env bash
# Measures the program `bench` on each workload, and the one of another engine beside it.
#
#   tools/bench.sh [--count] [OTHER [WORKLOADS]]
#
# OTHER is a folder with a program of the same words, as target/release/bench or crates/bench/out/bench.
# WORKLOADS is a folder with sheets and their readings, `bench` at the top of the repository if none is named.
# Prints nanoseconds a state and loads a second, or with --count instructions a state and a load, and how many times as much this engine takes.
set -u
top=$(cd "$(dirname "$0")/.." && pwd) || exit 1
how=timed
if [ "${1-}" = --count ]; then
    how=counted
    shift
fi
ours=$top/crates/bench/out/bench
other=${1-}
workloads=${2-$top/bench}
if [ -n "$other" ]; then
    for program in "$other/target/release/bench" "$other/crates/bench/out/bench"; do
        [ -x "$program" ] && other=$program && break
    done
fi
if [ "$how" = counted ] && ! command -v valgrind > /dev/null; then
    echo 'bench.sh: valgrind is missing; --count needs it' >&2
    exit 2
fi
for program in "$ours" ${other:+"$other"}; do
    if [ ! -f "$program" ] || [ ! -x "$program" ]; then
        echo "bench.sh: no program $program" >&2
        exit 2
    fi
done

shopt -s nullglob
sheets=("$workloads"/*.sheet)
if [ "${#sheets[@]}" -eq 0 ]; then
    echo "bench.sh: no sheet in $workloads" >&2
    exit 2
fi

# What a program prints on a workload with so many repetitions: its words, one a line.
said() { # program sheet repetitions
    local feed=${2%.sheet}.feed
    [ -f "$feed" ] || feed=
    "$1" "$2" "$3" ${feed:+"$feed"} | tr ' ' '\n'
}

# The number of the first of some keys that stands in what a program prints. It reads that on standard input.
number_of() { # keys
    local text key found
    text=$(cat)
    for key in "$@"; do
        found=$(sed -n "s|^$key=\([0-9.]*\).*|\1|p" <<<"$text" | tail -n 1)
        [ -n "$found" ] && echo "$found" && return
    done
    echo 0
}

# The states of one run.
states_of() { # program sheet
    said "$1" "$2" 1 | number_of states/run states | sed 's/\..*//'
}

# The least nanoseconds a state and the most loads a second of three rounds, each of about half a second.
timed() { # program sheet states
    local text ns loads repetitions round
    text=$(said "$1" "$2" 5)
    ns=$(number_of ns_per_state ns/state <<<"$text")
    loads=$(number_of loads_per_second loads/s <<<"$text")
    repetitions=$(awk -v ns="$ns" -v loads="$loads" -v states="$3" \
        'BEGIN { n = int(5e8 / (ns * states + 1e9 / loads)); print (n < 5 ? 5 : n > 1000000 ? 1000000 : n) }')
    for round in 1 2 3; do
        text=$(said "$1" "$2" "$repetitions")
        echo "$(number_of ns_per_state ns/state <<<"$text") $(number_of loads_per_second loads/s <<<"$text")"
    done | awk 'NR == 1 || $1 < ns { ns = $1 } $2 > loads { loads = $2 } END { print ns, loads }'
}

# The instructions of a program.
instructions() { # program and words, and before them options of callgrind
    valgrind --tool=callgrind --callgrind-out-file=/dev/null "$@" 2>&1 | sed -n 's/.*Collected : //p'
}

# Instructions a state and a load, each from the difference of two and five repetitions.
# A program that cannot be told to load only has its loads counted by the name of the function.
counted() { # program sheet states
    local feed=${2%.sheet}.feed few many loads_few loads_many
    [ -f "$feed" ] || feed=
    few=$(instructions "$1" "$2" 2 ${feed:+"$feed"})
    many=$(instructions "$1" "$2" 5 ${feed:+"$feed"})
    if "$1" "$2" 1 loads >/dev/null 2>&1; then
        loads_few=$(instructions "$1" "$2" 2 loads)
        loads_many=$(instructions "$1" "$2" 5 loads)
    else
        loads_few=$(instructions '--toggle-collect=*Engine*load*' "$1" "$2" 2 ${feed:+"$feed"})
        loads_many=$(instructions '--toggle-collect=*Engine*load*' "$1" "$2" 5 ${feed:+"$feed"})
    fi
    awk -v few="$few" -v many="$many" -v loads_few="$loads_few" -v loads_many="$loads_many" -v states="$3" \
        'BEGIN { load = (loads_many - loads_few) / 3; printf "%.1f %.0f\n", ((many - few) / 3 - load) / states, load }'
}

if [ "$how" = timed ]; then
    columns="ns/state loads/s"
else
    columns="instr/state instr/load"
fi
# shellcheck disable=SC2086
if [ -n "$other" ]; then
    printf '%-8s %7s %12s %12s %12s %12s %9s %9s\n' sheet states $columns other other ratio ratio
else
    printf '%-8s %7s %12s %12s\n' sheet states $columns
fi
for sheet in "${sheets[@]}"; do
    name=$(basename "$sheet" .sheet)
    states=$(states_of "$ours" "$sheet")
    if [ "$states" -eq 0 ]; then
        echo "$name: no state"
        continue
    fi
    read -r state load < <("$how" "$ours" "$sheet" "$states")
    if [ -z "$other" ]; then
        printf '%-8s %7s %12s %12s\n' "$name" "$states" "$state" "$load"
        continue
    fi
    if [ "$(states_of "$other" "$sheet")" -ne "$states" ]; then
        echo "$name: the other engine has another number of states"
        continue
    fi
    read -r state_other load_other < <("$how" "$other" "$sheet" "$states")
    # loads a second are the more the better, so that their ratio is taken the other way round
    awk -v name="$name" -v states="$states" -v a="$state" -v b="$load" -v c="$state_other" -v d="$load_other" -v how="$how" \
        'BEGIN { printf "%-8s %7d %12s %12s %12s %12s %9.2f %9.2f\n", name, states, a, b, c, d, a / c, how == "timed" ? d / b : b / d }'
done
