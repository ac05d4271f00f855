#!/bin/sh
# Runs the program that compares vectors where its stored run does not reach: digits in upper case, text that is not hexadecimal, vectors that
# fail, empty input, input that is too long, reads cut anywhere, and reads and writes that fail. Each run is held to what it writes on both
# streams.
set -eu
cd "$(dirname "$0")/.." || exit 1
vectors=crates/vectors/out/vectors
[ -x $vectors ] || { echo "vectors: there is no $vectors: rt ci and, in crates/vectors, rt run build it"; exit 1; }
made=$(mktemp -d) || exit 1
trap 'rm -rf "$made"' EXIT

# holds NAME OUT ERR: the last run wrote the lines OUT on standard output and ERR on standard error
holds() {
    printf '%s' "$2" >"$made/expected-out"
    printf '%s' "$3" >"$made/expected-err"
    if cmp -s "$made/expected-out" "$made/out" && cmp -s "$made/expected-err" "$made/err"; then
        echo "vectors: $1 ok"
    else
        echo "vectors: $1 FAILED"
        cat "$made/out" "$made/err"
        exit 1
    fi
}

# says NAME VECTOR RESULT FAILED: the program says the result of one vector, and how many failed
says() {
    printf '%s\n' "$2" | $vectors >"$made/out" 2>"$made/err"
    holds "$1" "$3
1 vectors, $4 failed
" ''
}

line='7 flat 50 within within 30.0'
sheet=020100072ee0051400c80190032000000000000000000320
cut=${sheet%0}
answer=000200320000012c
not_hexadecimal='is not hexadecimal, two digits a byte and 64 bytes at most'

says 'lower case' "a $sheet $answer" "a ok: $line" 0
says 'upper case' 'a 020100072EE0051400C80190032000000000000000000320 000200320000012C' "a ok: $line" 0
says 'both cases' "a 020100072Ee0051400C80190032000000000000000000320 $answer" "a ok: $line" 0
says 'another answer' "a $sheet 000200320000012d" "a FAILED, expected 000200320000012d: $line" 1
says 'a refusal that is not given' "a $sheet refused 13" "a FAILED, expected refused 13: $line" 1
says 'another refusal' "a 00 refused 12" 'a FAILED, expected refused 12: - refused 11' 1
says 'an answer that is not given' "a 00 $answer" "a FAILED, expected $answer: - refused 11" 1
says 'no bytes' 'a - refused 11' 'a ok: - refused 11' 0

# every character beside the digits, and others
for byte in / : @ G '`' g r x - '*'; do
    says "the sheet's digit $byte" "a $cut$byte $answer" "a FAILED: the sheet $not_hexadecimal" 1
    says "the answer's digit $byte" "a $sheet 00020032000001${byte}c" "a FAILED: the answer $not_hexadecimal" 1
done
says 'a first digit' "a x$cut $answer" "a FAILED: the sheet $not_hexadecimal" 1
says 'a carriage return' "a $sheet $answer$(printf '\r')" "a FAILED: the answer $not_hexadecimal" 1
says 'an odd number of digits' "a $cut $answer" "a FAILED: the sheet $not_hexadecimal" 1
says 'one digit' 'a 0 refused 11' "a FAILED: the sheet $not_hexadecimal" 1
says 'an odd number of digits in the answer' "a $sheet ${answer}0" "a FAILED: the answer $not_hexadecimal" 1
says 'no answer' "a $sheet" "a FAILED, expected : $line" 1

longest=$(printf '%0128d' 0)
says '64 bytes' "a $longest refused 11" 'a ok: - refused 11' 0
says '65 bytes' "a ${longest}00 refused 11" "a FAILED: the sheet $not_hexadecimal" 1
says 'an answer of 65 bytes' "a $sheet ${longest}00" "a FAILED: the answer $not_hexadecimal" 1

printf 'a - refused 11\nb 0x refused 11\n\nc - refused 12' | $vectors >"$made/out" 2>"$made/err"
holds 'several vectors' "a ok: - refused 11
b FAILED: the sheet $not_hexadecimal
 FAILED, expected : - refused 11
c FAILED, expected refused 12: - refused 11
4 vectors, 3 failed
" ''

$vectors </dev/null >"$made/out" 2>"$made/err"
holds 'no input' '0 vectors, 0 failed
' ''

# a name as long as the input may be
head -c 327665 /dev/zero | tr '\0' n >"$made/in"
echo ' - refused 11' >>"$made/in"
$vectors <"$made/in" >"$made/out" 2>"$made/err"
tail -c 40 "$made/out" >"$made/end" && mv "$made/end" "$made/out"
holds '327,679 bytes' 'nn ok: - refused 11
1 vectors, 0 failed
' ''
printf n | cat - "$made/in" | $vectors >"$made/out" 2>"$made/err"
holds '327,680 bytes' '' 'vectors: more than 327,679 bytes
'

for size in 1 4095; do
    dd bs=$size <crates/vectors/stdin 2>"$made/dd" | $vectors >"$made/out" 2>"$made/err"
    holds "reads of $size bytes" "$(cat crates/vectors/stdout)
" ''
done

$vectors <. >"$made/out" 2>"$made/err"
holds 'a read that fails' '' 'vectors: cannot read
'
$vectors <&- >"$made/out" 2>"$made/err"
holds 'input that is closed' '' 'vectors: cannot read
'

: >"$made/out"
$vectors <crates/vectors/stdin 2>"$made/err" >/dev/full
holds 'a write that fails' '' 'vectors: cannot write
'
$vectors <crates/vectors/stdin 2>"$made/err" >&-
holds 'output that is closed' '' 'vectors: cannot write
'
