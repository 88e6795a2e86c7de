#!/bin/sh
# Counts the instructions that one event costs, in the library and in the
# model, with both in the same process. The row `events` has one call an event,
# `dearest` one event on copies of a state; `judge`, `judge-all` and `frame`
# count the calls of one small function, `trackball` moves with their reports;
# the others have one call a list. Needs valgrind.
set -eu
cd "$(dirname "$0")"
cargo build --quiet --release --package bench
program=../target/rust/release/bench
work=$(mktemp -d)
trap 'rm -r "$work"' EXIT

# inclusive FUNCTION: what all calls to it cost, callees included
inclusive() {
    awk -v callee="cfn=$1" '
        $0 == callee { wanted = 1; next }
        /^calls=/ { if (wanted) { getline; sum += $NF }; wanted = 0 }
        END { printf "%d\n", sum }' "$work/profile"
}

printf '%-10s %8s %13s %11s %7s\n' case count 'library each' 'model each' ratio
for name in mix-1 mix-70 mix-700 mix-7000 tries mismatches dearest refused events judge judge-all frame trackball; do
    case $name in
    events|dearest) library=measured_library_event model=measured_model_event ;;
    judge*) library=calugnid_judge model=measured_model_judge ;;
    frame) library=calugnid_frame model=measured_model_frame ;;
    trackball) library=measured_library_trackball model=measured_model_trackball ;;
    *) library=measured_library model=measured_model ;;
    esac
    events=$(valgrind --quiet --tool=callgrind --compress-strings=no --compress-pos=no \
        --callgrind-out-file="$work/profile" "$program" "$name")
    awk -v name="$name" -v events="$events" \
        -v library="$(inclusive "$library")" \
        -v model="$(inclusive "$model")" '
        BEGIN {
            if (library == 0 || model == 0) { print name ": no calls seen"; exit 1 }
            printf "%-10s %8d %13.1f %11.1f %7.2f\n",
                name, events, library / events, model / events, library / model
        }'
done
