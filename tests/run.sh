#!/usr/bin/env bash
# The tests from outside: the library linked into Rust and compared with an independent model, the C programs built as C and as C++,
# the program `panelrun` on lists, and the stored outputs compared with those of the model. Arguments go to `cargo test`.
set -euo pipefail
cd "$(dirname "$0")/.."
library=crates/calugnid/out/libcalugnid.a
programs=target/programs

# by_model NAME: what a program of tests/generate prints from the model
by_model() {
    (cd tests && cargo run --quiet --release --package generate --bin "$1")
}

# build SOURCE: the programs NAME_c and NAME_cxx
build() {
    local name flags=(-Wall -Wextra -Werror -Iinclude)
    name=$(basename "$1" .c)
    cc -std=c11 "${flags[@]}" "$1" "$library" -o "$programs/${name}_c"
    c++ -std=c++11 "${flags[@]}" -x c++ "$1" -x none "$library" -o "$programs/${name}_cxx"
}

# prints EXPECTED COMMAND...: the command succeeds and prints what is stored
prints() {
    "${@:2}" > "$programs/printed"
    cmp "$programs/printed" "$1"
}

(cd crates/calugnid && rt lib) # proves what changed, and builds the archive
(cd tests && cargo test --quiet --release "$@")

{
    by_model frames_table
    by_model list_cases < crates/vectors/stdin
    by_model image_cases
} | cmp - crates/vectors/stdout

mkdir -p "$programs"
for source in tests/c/*.c examples/*.c; do
    build "$source"
done
for language in c cxx; do
    for source in tests/c/*.c; do
        "$programs/$(basename "$source" .c)_$language"
    done
    for source in examples/*.c; do
        prints "${source%.c}.expected" "$programs/$(basename "$source" .c)_$language"
    done
done

# README's C program prints what README says.
awk '/^```c$/ { on = 1; next } /^```$/ { on = 0 } on' README.md > "$programs/first.c"
sed -n 's/^It prints `\([^`]*\)`.*/\1/p' README.md > "$programs/first.expected"
build "$programs/first.c"
for language in c cxx; do
    prints "$programs/first.expected" "$programs/first_$language"
done

# A result that may refuse and is not looked at draws a warning.
echo '#include "calugnid.h"
void ignore(uint8_t *state) { calugnid_load(state, 0, state, 0); }' > "$programs/ignored.c"
for compiler in "cc -x c" "c++ -x c++"; do
    if $compiler -Werror -Iinclude -c "$programs/ignored.c" -o "$programs/ignored.o" 2> "$programs/said"; then
        echo "an ignored refusal drew no warning"
        exit 1
    fi
    grep -q 'unused-result' "$programs/said"
done

# The table of the keypad with 1 2 3 in its upper row, and one that would be refused.
for language in c cxx; do
    prints examples/upper-123.table "$programs/make_table_$language" 6C 69 75 72 7D 7A
    if "$programs/make_table_$language" 1C E0 > "$programs/printed" 2> "$programs/said"; then
        echo "a table that is refused was made"
        exit 1
    fi
    cmp "$programs/printed" /dev/null
    grep -q 'check 14' "$programs/said"
done

for events in examples/*.events; do
    prints "${events%.events}.expected" by_model printed_list < "$events"
    prints "${events%.events}.expected" bin/panelrun < "$events"
done
# Zeros, which read port 60h: no event, the most events, and lengths that are refused by 7.
for length in 0 1 4 20999 21000 21001 21003 40000; do
    head -c "$length" /dev/zero > "$programs/zeros"
    by_model printed_list < "$programs/zeros" > "$programs/page"
    prints "$programs/page" bin/panelrun < "$programs/zeros"
done
echo "the tests from outside pass"
