#!/bin/sh
# Runs the listing program where the stored run does not reach: the examples, empty input, borders of blocks, reads cut anywhere, and
# reads and writes that fail.
set -eu
cd "$(dirname "$0")/.." || exit 1
listing=crates/listing/out/listing
[ -x $listing ] || { echo "listing: there is no $listing: rt ci and, in crates/listing, rt run build it"; exit 1; }
made=$(mktemp -d) || exit 1
trap 'rm -rf "$made"' EXIT

# the first sheet of the stored run is F, the second G
F() { head -c 24 crates/listing/stdin; }
G() { head -c 48 crates/listing/stdin | tail -c 24; }
header='line shape mm loss surface upto'
lineF='7 flat 50 within within 30.0'
lineG='9 refused 18'

# expect NAME: what stands in $made/out is what standard input has
expect() {
    if cmp -s - "$made/out"; then
        echo "listing: $1 ok"
    else
        echo "listing: $1 FAILED"
        exit 1
    fi
}

# N times the output of a command
repeat() {
    n=$1
    shift
    while [ "$n" -gt 0 ]; do
        "$@"
        n=$((n - 1))
    done
}

for example in plant rows cold cheap jackets; do
    $listing <examples/$example.sheets >"$made/out"
    expect "the example $example" <examples/$example.txt
done

{ F; G; } | $listing >"$made/out"
printf '%s\n' "$header" "$lineF" "$lineG" | expect 'F then G'

$listing </dev/null >"$made/out"
printf '%s\n' "$header" | expect 'no input'

for n in 511 512 513 1024; do
    repeat $n F | $listing >"$made/out"
    { echo "$header"; repeat $n echo "$lineF"; } | expect "$n sheets"
done

{ repeat 512 F; printf x; } | $listing >"$made/out"
{ echo "$header"; repeat 512 echo "$lineF"; echo '- refused 11'; } | expect 'a byte after a block'

for size in 1 23 25 4095; do
    dd bs=$size <crates/listing/stdin 2>/dev/null | $listing >"$made/out"
    expect "reads of $size bytes" <crates/listing/stdout
done

$listing <. >"$made/out" 2>&1
{ echo "$header"; echo 'listing: cannot read'; } | expect 'a read that fails'

F | $listing 2>"$made/out" >/dev/full
echo 'listing: cannot write' | expect 'a write that fails'
