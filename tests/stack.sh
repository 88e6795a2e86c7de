#!/bin/sh
# Finds the smallest stack limit under which a run of 7,000 events passes, for
# the library, the model, and the bare program that would call them.
set -eu
cd "$(dirname "$0")"
cargo build --quiet --release --package bench
program=../target/rust/release/bench

# once KIB WHO: one run in a shell of its own, which keeps quiet about crashes
once() {
    sh -c 'ulimit -c 0; ulimit -s "$1"; env -i "$2" stack "$3" || exit 1' \
        sh "$1" "$program" "$2" >/dev/null 2>&1
}

# passes KIB WHO: several times over, since the start of a stack is random
passes() {
    for attempt in 1 2 3 4 5 6 7 8; do
        once "$1" "$2" || return 1
    done
}

# smallest WHO: by bisection, up to 1 GiB
smallest() {
    low=0
    high=1024
    until passes "$high" "$1"; do
        low=$high
        high=$((high * 2))
        if [ "$high" -gt 1048576 ]; then
            echo none
            return
        fi
    done
    while [ $((high - low)) -gt 1 ]; do
        middle=$(((low + high) / 2))
        if passes "$middle" "$1"; then high=$middle; else low=$middle; fi
    done
    echo "$high"
}

for who in library model nothing; do
    printf '%-8s %s KiB\n' "$who" "$(smallest "$who")"
done
