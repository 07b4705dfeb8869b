#!/usr/bin/env bash
# Prints docs/MEASUREMENTS.md: from the repository's first directory, docs/measure.sh GATE_LOG, where GATE_LOG is what .ci/run printed.
# Needs valgrind. With TREECOVER_BEFORE_DIR, an earlier static library (reference/README.md) is measured beside this one.
set -euo pipefail
log=$1
features=product
mappers="product plain plain_kept merging"
judges="product reference wordwise"
cover_judges="judge judge_reference"
parts="product maps plain_kept merging"
[ -z "${TREECOVER_BEFORE_DIR:-}" ] || {
    features=before mappers="$mappers before" judges="$judges before" cover_judges="$cover_judges judge_before" parts="$parts before"
}
rows="typical chain comb deep full crosscomb driven"
sheets="longest_library longest_tree longest_plain_tree longest_functions"
scratch=$(mktemp -d)
trap 'rm -rf "$scratch"' EXIT

tools/c-library >"$scratch/staticlib" 2>&1
(cd crates/test_cases && rt run <stdin) >"$scratch/test_cases" 2>&1
export TREECOVER_LIB_DIR=$PWD/target/staticlib TREECOVER_LIB_NAME=interface
export TREECOVER_CASES=$PWD/crates/test_cases/out/test_cases
cargo build -q --release --offline --manifest-path reference/Cargo.toml --features "$features" --bins --target-dir target/reference
bench=$PWD/target/reference/release/bench
fresh=$PWD/target/reference/release/fresh

instructions() { # WHO ROW: of one map or judgement, the difference of two runs; nothing if the delivery before refuses the row
    [ "$1" != before ] || "$bench" repeat 1 "$1" "$2" >/dev/null 2>&1 || return 0
    for count in 1 2; do
        valgrind --tool=callgrind --callgrind-out-file="$scratch/cg" "$bench" repeat $count "$1" "$2" 2>&1 | awk '/Collected/ { print $4 }'
    done | paste -sd' ' | awk '{ print $2 - $1 }'
}

table() { # WHO ROWS: the instructions of each on each row
    printf '| row |'; printf ' %s |' $1; echo
    printf '|---|'; printf -- '---|%.0s' $1; echo
    for row in $2; do printf '| %s |' "$row"; for w in $1; do printf ' %s |' "$(instructions "$w" "$row")"; done; echo; done
}

stack() { # WHO ROW: the greatest stack of a map, or of a judgement, in bytes
    valgrind --tool=massif --stacks=yes --heap=no --massif-out-file="$scratch/ms" "$bench" repeat 2 "$1" "$2" >/dev/null 2>&1
    awk -F= '/^mem_stacks_B/ && $2 > m { m = $2 } END { print m }' "$scratch/ms"
}

cat <<TEXT
# Measurements

Printed by \`docs/measure.sh GATE_LOG\`, where GATE_LOG is the output of \`.ci/run\`. The machine's speed
changes from run to run, so ratios within a run say more than times.
Processor: $(lscpu | awk -F': *' '/^Model name/ { print $2; exit }'), $(nproc) processors.

## Map and the judges

The proved map through the C interface; the same algorithm in plain Rust (\`reference/src/deadline\`),
which works every point out anew (\`plain\`) or keeps a match's last point while it is in time, and passes
over a match whose last point is not below the least so far (\`plain_kept\`); the separate implementation,
which merges whole curves (\`merging\`)$([ "$features" = product ] || echo '; and the static library of the delivery before (`before`)').
All built for release, on the same bytes, taking turns in one run (medians of 31 rounds), each answer compared
with the expected sheet$([ "$features" = product ] || echo ' (of `before` area and arrival; it is left out where it refuses the sheets)').
A ratio is the product's time over the other's. \`typical\` is a usual problem; \`chain\` and \`comb\` are
the worst that were found before inputs could be exchanged; \`deep\` has nearly nothing to find and the
deepest choice; \`full\` and \`crosscomb\` have many crossings; \`driven\` is \`typical\` with all leaves
driven; \`part\` has 16 trees of the kind of \`typical\`, and \`deep_part\` 16 of the kind of \`deep\`,
linked.

The judges are timed on the longest sound library, the longest sound tree, whose leaves are all driven,
and the same tree with plain leaves; the judge of functions on a library as long and its function sheet,
all of it right (\`longest_functions\`). Beside the product stand the separate implementation, which keeps
what it reads and works a drawing out setting by setting (\`reference\`), and judges written by hand for
speed, which take each field from one word of 64 bits (a function of six pins from two), check every rule,
keep nothing but what each drawing computes and each cell's counts, and divide places, which the product
must not (\`reference/src/wordwise.rs\`, \`wordwise\`).

The bars that we set: on chain and comb no more instructions than before inputs could be exchanged; on
full and crosscomb at most 1.25 times plain Rust with all savings (crossings that are ruled out together,
points that are kept, matches that are passed over: \`plain_kept\`); faster than merging on every row but
deep; for the judges of sheets half of the time that they took while a field was read bit by bit, and a
quarter as the goal; for a part of 16 typical trees at most 1.1 of the time of 16 calls of map.

\`\`\`
$("$bench")
\`\`\`

Instructions for one map, by callgrind. Bytes made zero by one repeated instruction count once for each
byte: for the product some 250,000 in every row.

$(table "$mappers" "$rows")

Instructions for the parts of 16 trees, by callgrind: the part operation, the same trees mapped by 16
calls of map with the arrivals put in (\`maps\`), and plain Rust and merging with the part.

$(table "$parts" "part deep_part")

Instructions for one judgement of a sheet, or of functions, by callgrind.

$(table "$judges" "$sheets")

Instructions for one judgement of the row's cover, by callgrind.

$(table "$cover_judges" "$rows")

The greatest stack, by massif, in bytes, of which main and the benchmark have a small part. The bar that
we set is 512 KB.

| row | map | judge of its cover |
|---|---|---|
$(for row in $rows; do echo "| $row | $(stack product "$row") | $(stack judge "$row") |"; done)

The judge of functions, on \`longest_functions\`: $(stack product longest_functions). The part operation, on \`part\` and \`deep_part\`:
$(stack product part), $(stack product deep_part).

## Agreement on fresh cases

Number and place or length, every byte of the output and every word of the work area, both filled with
random values before. Fresh sheets are judged by \`wordwise\` too.

\`\`\`
$ fresh map 200000 31
$("$fresh" map 200000 31)
$ fresh judge 300000 32
$("$fresh" judge 300000 32)
$ fresh cover 200000 33
$("$fresh" cover 200000 33)
$ fresh bill 200000 34
$("$fresh" bill 200000 34)
$ fresh functions 200000 35
$("$fresh" functions 200000 35)
$ fresh part 200000 36
$("$fresh" part 200000 36)
\`\`\`

## The gate

$(grep "passed, [0-9]* failed" "$log" | tail -n 1): $(ls crates | wc -l) crates, $(ls crates/*/must-fail/*.edit | wc -l) edits, on $(nproc) processors.
TEXT
