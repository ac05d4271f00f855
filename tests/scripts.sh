#!/bin/sh
# Runs the scripts that write sheets and books: a number that a field's bytes cannot hold stops them with the field's name, the largest and
# the least that they hold pass, a few sheets are answered, books of both kinds are made, filed in and read, and the stored examples come
# out as they are stored.
set -eu
cd "$(dirname "$0")/.." || exit 1
if ! command -v python3 >/dev/null; then
    echo 'scripts: skipped, there is no python3'
    exit 0
fi
export PYTHONDONTWRITEBYTECODE=1 PYTHONUTF8=1
made=$(mktemp -d) || exit 1
trap 'rm -rf "$made"' EXIT

# report NAME: what stands in $made/out is what standard input has
report() {
    if cmp -s - "$made/out"; then
        echo "scripts: $1 ok"
    else
        echo "scripts: $1 FAILED"
        cat "$made/out"
        exit 1
    fi
}

# gives NAME TEXT COMMAND: the command succeeds and writes the text, on standard output alone
gives() {
    name=$1 text=$2
    shift 2
    "$@" >"$made/out" 2>"$made/err" || echo 'it failed' >>"$made/out"
    if [ -s "$made/err" ]; then cat "$made/err" && echo 'on standard error'; fi >>"$made/out"
    echo "$text" | report "$name"
}

# refuses NAME SENTENCE COMMAND: the command fails, writes the sentence on standard error and nothing on standard output
refuses() {
    name=$1 sentence=$2
    shift 2
    if "$@" >"$made/bytes" 2>"$made/out" || [ -s "$made/bytes" ]; then echo 'it did not stop' >>"$made/out"; fi
    echo "$sentence" | report "$name"
}

# the bytes that examples/plant.py and tools/sheet.py make
plant() { python3 -c 'import sys; sys.path.insert(0, "examples"); import plant; print(plant.sheet(sys.argv[1]).hex())' "$1"; }
packed() {
    python3 -c 'import sys; sys.path.insert(0, "tools"); import sheet
print(sheet.sheet_of(**dict(zip(sheet.NAMES, map(int, sys.argv[1:])))).hex())' "$@"
}

# with COLUMN VALUE ROW: the row with another value in a column
with() { echo "$3" | awk -v column="$1" -v value="$2" '{ $column = value; print }'; }

# the plant's table with another tank, and with another price of heat
sed 's/6000\.0/6600.0/' examples/plant.py >"$made/tank.py"
refuses 'a tank of 6,600 mm' 'line 160: the diameter is 6600.0, but its field holds 0 to 65,535 whole units of 0.1 mm' \
    python3 "$made/tank.py"
sed 's/75\.00/656.00/' examples/plant.py >"$made/price.py"
refuses 'a heat price of 656.00' 'line 140: the heat price is 656.00, but its field holds 0 to 65,535 whole units of 0.01 yuan/GJ' \
    python3 "$made/price.py"

gives 'a row of the largest figures' 0304ffffffff7fff7fffffffffffffffffffffffffff7fff \
    plant '65535 surface season-i 6553.5 3276.7 3276.7 6.5535 655.35 655.35 65535 65535 6.5535 3276.7'
gives 'a row of the least figures' 030100000000800080000000000000000000000000008000 \
    plant '0 surface year 0.0 -3276.8 -3276.8 0 0 0 0 0 0 -3276.8'
gives 'a cold row of the least figures' 040100000000800080000000000000000000000000008000 \
    plant '0 cold-surface year 0.0 -3276.8 -3276.8 0 0 0 0 0 0 -3276.8'
gives 'a cold row with the largest aim' 05020000000000000000000000000000000000000000ffff \
    plant '0 cold-economy season 0 0 0 0 0 0 0 0 0 6553.5'
gives 'a limited row with the largest aim' 06040000000000000000000000000000000000000000ffff \
    plant '0 economy-limited season-i 0 0 0 0 0 0 0 0 0 6553.5'
gives 'a row with the largest jacket price' 07040000000000000000000000000000000000000000ffff \
    plant '0 economy-jacket season-i 0 0 0 0 0 0 0 0 0 65535'
gives 'a row with the largest loss' 02020000000000000000000000000000000000000000ffff \
    plant '0 loss season 0 0 0 0 0 0 0 0 0 6553.5'

tank='160 economy year 6000.0 85.0 15.0 0.0400 11.63 55.00 8000 800 0.2296 0'
while IFS='|' read -r column value name held; do
    refuses "a row with $name $value" "line 160: the $name is $value, but its field holds $held" plant "$(with "$column" "$value" "$tank")"
done <<END
4|-0.1|diameter|0 to 65,535 whole units of 0.1 mm
4|6000.05|diameter|0 to 65,535 whole units of 0.1 mm
4|6,000|diameter|0 to 65,535 whole units of 0.1 mm
5|3276.8|pipe temperature|-32,768 to 32,767 whole units of 0.1 °C
5|-3276.9|pipe temperature|-32,768 to 32,767 whole units of 0.1 °C
6|3276.8|air temperature|-32,768 to 32,767 whole units of 0.1 °C
7|6.5536|conductivity|0 to 65,535 whole units of 0.0001 W/(m·K)
8|655.36|surface coefficient|0 to 65,535 whole units of 0.01 W/(m²·K)
9|655.36|heat price|0 to 65,535 whole units of 0.01 yuan/GJ
10|65536|hours a year|0 to 65,535 whole units of 1 h
11|800.5|insulation price|0 to 65,535 whole units of 1 yuan/m³
12|6.5536|yearly share|0 to 65,535 whole units of 0.0001
13|-0.1|aim|0 to 65,535 whole units of 0.1
END
refuses 'a row with line 65536' 'line 65536: the line is 65536, but its field holds 0 to 65,535 whole units of 1' \
    plant "$(with 1 65536 "$tank")"
refuses 'a row with a surface aim' 'line 160: the aim is 3276.8, but its field holds -32,768 to 32,767 whole units of 0.1 °C' \
    plant "$(with 13 3276.8 "$(with 2 surface "$tank")")"
refuses 'a row with a cold surface aim' 'line 160: the aim is -3276.9, but its field holds -32,768 to 32,767 whole units of 0.1 °C' \
    plant "$(with 13 -3276.9 "$(with 2 cold-surface "$tank")")"
refuses 'a row with a cold economy aim' 'line 160: the aim is -0.1, but its field holds 0 to 65,535 whole units of 0.1' \
    plant "$(with 13 -0.1 "$(with 2 cold-economy "$tank")")"
refuses 'a row with a limited economy aim' 'line 160: the aim is -0.1, but its field holds 0 to 65,535 whole units of 0.1' \
    plant "$(with 13 -0.1 "$(with 2 economy-limited "$tank")")"
for aim in -1 80.5 65536; do
    refuses "a row with a jacket price of $aim" "line 160: the aim is $aim, but its field holds 0 to 65,535 whole units of 1 yuan/m²" \
        plant "$(with 13 $aim "$(with 2 economy-jacket "$tank")")"
done
refuses 'a row with another goal' \
    'line 160: the goal is price, but it must be one of economy, loss, surface, cold-surface, cold-economy, economy-limited, economy-jacket' \
    plant "$(with 2 price "$tank")"

gives 'a sheet of the largest numbers' ffffffffffff7fff7fffffffffffffffffffffffffffffff \
    packed 255 255 65535 65535 32767 32767 65535 65535 65535 65535 65535 65535 65535
gives 'a sheet of the least numbers' 030000000000800080000000000000000000000000008000 \
    packed 3 0 0 0 -32768 -32768 0 0 0 0 0 0 -32768
gives 'a cold sheet of the least numbers' 040000000000800080000000000000000000000000008000 \
    packed 4 0 0 0 -32768 -32768 0 0 0 0 0 0 -32768

sheet='1 1 60000 850 150 400 1163 5500 8000 800 2296 0'
while read -r column value name said held; do
    # shellcheck disable=SC2086,SC2046 # the numbers of a sheet are words
    refuses "a sheet with $name $value" "$name is $said, but its field holds $held" python3 tools/sheet.py $(with "$column" "$value" "$sheet")
done <<END
1 256 goal 256 the whole numbers 0 to 255
2 -1 service -1 the whole numbers 0 to 255
3 66000 D 66,000 the whole numbers 0 to 65,535
3 -1 D -1 the whole numbers 0 to 65,535
4 32768 t 32,768 the whole numbers -32,768 to 32,767
4 -32769 t -32,769 the whole numbers -32,768 to 32,767
5 32768 ta 32,768 the whole numbers -32,768 to 32,767
8 65600 f 65,600 the whole numbers 0 to 65,535
10 800.5 P 800.5 whole numbers
12 -1 aim -1 the whole numbers 0 to 65,535
END
# shellcheck disable=SC2086,SC2046
for goal in 3 4; do
    refuses "a sheet with a surface aim, goal $goal" 'aim is 32,768, but its field holds the whole numbers -32,768 to 32,767' \
        python3 tools/sheet.py $(with 12 32768 "$(with 1 $goal "$sheet")")
done
# shellcheck disable=SC2086,SC2046
for goal in 5 6 7; do
    refuses "an economy sheet with aim -1, goal $goal" 'aim is -1, but its field holds the whole numbers 0 to 65,535' \
        python3 tools/sheet.py $(with 12 -1 "$(with 1 $goal "$sheet")")
done

# larger NUMBERS: what tools/sheet.py answers to the larger sheet of these numbers, with any line number
larger() {
    python3 -c 'import sys; sys.path.insert(0, "tools"); import sheet
x = dict(zip((name for name in sheet.NAMES if name != "line"), map(int, sys.argv[1:])))
lines = 0, 100_000, 4_294_967_295
print(*{sheet.said(sheet.answer(sheet.sheet_of(line, 26, **x), 26)) for line in lines}, sep=" or ")' "$@"
}

# answers NAME TEXT NUMBERS: the sheet of these numbers is answered with the text, and so is the larger sheet
answers() {
    name=$1 text=$2
    shift 2
    gives "$name" "$text" python3 tools/sheet.py "$@"
    gives "$name, as a larger sheet" "$text" larger "$@"
}

# a bound is 256 times its high byte plus its low byte, less 65,536 from 32,768 on
answers 'table 4 exchanged, 20 mm and up to 7.7 °C' '0 1 0 20 3 0 0 77' 1 1 270 207 70 333 2048 7500 2880 1600 2296 0
answers 'chilled water, 20 mm and down to 20.0 °C' '0 1 0 20 3 0 0 200' 5 1 270 70 207 333 2048 7500 2880 1600 2296 0
answers 'liquid nitrogen, 50 mm and down to 43.0 °C' '0 2 0 50 3 0 1 174' 4 1 12000 -1960 440 200 10000 0 0 0 0 430
answers 'a t of -196.1 °C' 'refused 13' 4 1 12000 -1961 440 200 10000 0 0 0 0 430
answers 'a limited wall, 90 mm as by economy alone' '0 2 0 90 0 0 1 200' 6 1 20000 1500 340 1000 1000 1000 5000 1160 2000 0
answers 'a limited wall, 110 mm by its second pass' '1 2 0 110 0 0 1 181' 6 1 20000 1500 340 1000 1000 810 5000 1160 2000 0
answers 'a limited wall with an aim' 'refused 14' 6 1 20000 1500 340 1000 1000 810 5000 1160 2000 1044
answers 'a limited pipe, its check too close' 'refused 18' 6 2 1080 500 400 400 1160 400 500 2600 2296 0
answers 'a jacketed pipe, 70 mm and up to 33.5 °C' '0 1 0 70 0 0 1 79' 7 1 2190 2150 250 480 1163 2000 7500 1800 2296 150
answers 'the same without a jacket, 90 mm' '0 1 0 90 0 0 1 58' 1 1 2190 2150 250 480 1163 2000 7500 1800 2296 0
answers 'a jacketed tube without a difference up to 10 mm' '0 1 0 20 1 0 1 124' 7 1 180 600 250 1000 500 100 500 3000 2296 90
answers 'a jacketed pipe, bare, where 10 to 30 mm would miss' '0 1 0 0 1 1 5 220' 7 1 450 1500 250 1120 500 2000 6000 1600 2296 90
answers 'the same without a difference when bare, 40 mm' '0 1 0 40 1 1 2 65' 7 1 450 1500 250 1130 500 2000 6000 1600 2296 90
answers 'a jacketed pipe, bare, its two squares equal' '0 1 0 0 3 0 1 44' 7 1 1000 300 200 759 10000 100 800 1241 759 2400
answers 'a jacketed tube, a rung too close' 'refused 18' 7 1 100 2700 250 430 1000 2900 4000 1600 2296 160
answers 'a jacketed wall' 'refused 43' 7 1 10001 1500 250 450 1163 2000 7500 1600 2296 90
answers 'a jacketed wall as cold as the air' 'refused 15' 7 1 10001 250 250 450 1163 2000 7500 1600 2296 90
answers 'a goal 8' 'refused 12' 8 2 1080 500 400 400 1160 400 500 2600 2296 0
# F and G of document 01 and F with other aims; as goal 3, aim 300 needs 400 × 1,100 × 10⁷ / (800 × 100) = 55,000,000 as F does
answers 'F, 50 mm and up to 30.0 °C' '0 2 0 50 0 0 1 44' 2 1 12000 1300 200 400 800 0 0 0 0 800
answers 'F with aim 799, 60 mm and up to 28.5 °C' '0 2 0 60 0 0 1 29' 2 1 12000 1300 200 400 800 0 0 0 0 799
answers 'F with aim 145, 300 mm and up to 21.9 °C' '0 2 1 44 0 0 0 219' 2 1 12000 1300 200 400 800 0 0 0 0 145
answers 'F with aim 144' 'refused 17' 2 1 12000 1300 200 400 800 0 0 0 0 144
answers 'G' 'refused 18' 2 1 10001 300 200 400 1163 0 0 0 0 1163
answers 'F as goal 3, 50 mm' '0 2 0 50 0 0 1 44' 3 1 12000 1300 200 400 800 0 0 0 0 300
answers 'F as goal 3 with aim 299, 60 mm' '0 2 0 60 0 0 1 29' 3 1 12000 1300 200 400 800 0 0 0 0 299
answers 'F as goal 3 with t as its aim' 'refused 16' 3 1 12000 1300 200 400 800 0 0 0 0 1300

# made TEXT: a sheet from what a caller hands over
made() { python3 -c "import sys; sys.path.insert(0, 'tools'); import sheet; print(sheet.sheet_of($1).hex())"; }
fields='goal=1, service=1, D=270, t=207, ta=70, L=333, alpha=2_048, f=7_500, tau=2_880, P=1_600, S=2_296'
gives 'a sheet by the names of its fields' 01010007010e00cf0046014d08001d4c0b40064008f80000 made "$fields, aim=0, line=7"
refuses 'half an aim' 'aim is 0.5, but its field holds the whole numbers 0 to 65,535' made "$fields, aim=0.5"
refuses 'another name' 'lien is no field of a sheet' made "$fields, aim=0, lien=7"
refuses 'a name that is missing' 'aim is not given' made "$fields"
refuses 'a line 65,536' 'line is 65,536, but its field holds the whole numbers 0 to 65,535' made "$fields, aim=0, line=65_536"

gives 'a larger sheet, line 100,000' 0101000186a0010e00cf0046014d08001d4c0b40064008f80000 made "$fields, aim=0, line=100_000, size=26"
gives 'a larger sheet, line 7' 010100000007010e00cf0046014d08001d4c0b40064008f80000 made "$fields, aim=0, line=7, size=26"
gives 'a larger sheet, line 4,294,967,295' 0101ffffffff010e00cf0046014d08001d4c0b40064008f80000 \
    made "$fields, aim=0, line=4_294_967_295, size=26"
gives 'a larger sheet with a surface aim below zero' 030100000000006480008000000000000000000000000000fed4 \
    made 'goal=3, service=1, D=100, t=-32_768, ta=-32_768, L=0, alpha=0, f=0, tau=0, P=0, S=0, aim=-300, size=26'
for line in 4_294_967_296 -1; do
    refuses "a larger sheet, line $line" "line is $(echo $line | tr _ ,), but its field holds the whole numbers 0 to 4,294,967,295" \
        made "$fields, aim=0, line=$line, size=26"
done
refuses 'a larger sheet with D 65,536' 'D is 65,536, but its field holds the whole numbers 0 to 65,535' \
    made "goal=2, service=1, D=65_536, t=0, ta=0, L=0, alpha=0, f=0, tau=0, P=0, S=0, aim=0, size=26"

# what calls of tools/book.py say of lent bytes: a line for each line of standard input, which has a name, what is to be said, and the calls
cat >"$made/calls.py" <<'END'
import sys
sys.path.insert(0, "tools")
from book import LARGER, STANDARD, file, make, read, said


def over(book, held):
    "The bytes with what is held at each place."
    result = bytearray(book)
    for place, part in held.items():
        result[place:place + len(part)] = part
    assert len(result) == len(book), "it is held beyond the end"
    return result


def lent(length, held={}, rest=0):
    "So many bytes: what is held at each place, and the rest."
    return over(bytes([rest]) * length, held)


# F and H are sheet F of document 01 and F with aim 799, with line number 100,000, F7 is F with line number 7, and A and B are the answers
F = bytes.fromhex("0201 000186a0 2ee0 0514 00c8 0190 0320 0000 0000 0000 0000 0320")
F7 = over(F, {2: [0, 0, 0, 7]})
H = over(F, {24: [3, 31]})
A, B = bytes([0, 2, 0, 50, 0, 0, 1, 44]), bytes([0, 2, 0, 60, 0, 0, 1, 29])
# the same as 24 bytes, with line number 7
F24 = bytes.fromhex("0201 0007 2ee0 0514 00c8 0190 0320 0000 0000 0000 0000 0320")
H24 = over(F24, {22: [3, 31]})
# new books: of capacity 1, and of the largest
NEW, LARGEST = lent(44, {5: [1]}), lent(3_400_010, {3: [1, 134, 160]})
NEW24, LARGEST24 = lent(36, {1: [1]}), lent(32_004, {0: [3, 232]})
# full books: of the largest capacity, where only the last entry is not zero, and of capacity 2
LAST = over(LARGEST, {7: [1, 134, 160], 2_599_984: F, 3_400_002: A})
LAST24 = over(LARGEST24, {2: [3, 232], 23_980: F24, 31_996: A})
TWO = lent(78, {5: [2], 9: [2], 10: F + H, 62: A + B})
TWO24 = lent(68, {1: [2], 3: [2], 4: F24 + H24, 52: A + B})


def left(call, book):
    "What a call says of a book that it leaves as it is."
    handed = bytearray(book)
    result = call(handed)
    assert handed == book, "the book is changed"
    return result


def makes(layout, capacity, length, held):
    "What making a book of bytes of 255 says; the book is then all zero but for what is held."
    book = lent(length, rest=255)
    result = make(layout, book, capacity)
    assert book == lent(length, held), "the book is not as it should be"
    return result


def fails(layout, capacity, *lengths):
    "What making a book of so many bytes of 255 says, for each length."
    return [left(lambda book: make(layout, book, capacity), lent(length, rest=255)) for length in lengths]


def files(sheet, book, held):
    "What filing a sheet in a book says, which then differs by what is held."
    filed = bytearray(book)
    result = file(filed, sheet)
    assert filed == over(book, held), "the book is not as it should be"
    return result


def refused(book, *sheets):
    "What filing in a book says, for each sheet."
    return [left(lambda book: file(book, sheet), book) for sheet in sheets]


def reads(book, entry, layout=None):
    "What reading an entry of a book says."
    return left(lambda book: read(book, entry, layout), book)


def shut(*books):
    "What filing, sheets of any length, and reading say of books: for each book each number once."
    return [number for book in books for number in sorted({*refused(book, F, F24, b""), reads(book, 0)})]


def text(expression):
    try:
        result = eval(expression)
    except Exception as error:
        return repr(error)
    return "made" if result is None else said(b"".join(result) if isinstance(result, tuple) else result)


for line in sys.stdin:
    print(text(line.split("|")[2]))
END

# The lengths are 10 + 34c and 4 + 32c, and entry e is at 10 + 26e and 10 + 26c + 8e, or at 4 + 24e and 4 + 24c + 8e. As bytes 1,000 is
# 3 232, 1,001 is 3 233, 100,000 is 0 1 134 160 and 100,001 is 0 1 134 161.
cat >"$made/rows" <<'END'
a new larger book, capacity 1|made|makes(LARGER, 1, 44, {5: [1]})
a new larger book, capacity 100,000|made|makes(LARGER, 100_000, 3_400_010, {3: [1, 134, 160]})
a new larger book, capacity 0|31 31 31|fails(LARGER, 0, 0, 10, 44)
a new larger book, capacity 100,001|31 31|fails(LARGER, 100_001, 3_400_044, 3_400_010)
a new larger book, capacity 2 to the 32nd and 1|31|fails(LARGER, 4_294_967_297, 44)
a new larger book, capacity 1 in other lengths|31 31 31 31 31 31 31 31|fails(LARGER, 1, 0, 2, 9, 10, 36, 43, 45, 78)
a new standard book, capacity 1|made|makes(STANDARD, 1, 36, {1: [1]})
a new standard book, capacity 1,000|made|makes(STANDARD, 1_000, 32_004, {0: [3, 232]})
a new standard book, capacity 0|31 31 31|fails(STANDARD, 0, 0, 4, 36)
a new standard book, capacity 1,001|31 31|fails(STANDARD, 1_001, 32_036, 32_004)
a new standard book, capacity 65,537|31|fails(STANDARD, 65_537, 36)
a new standard book, capacity 1 in other lengths|31 31 31 31 31 31 31 31|fails(STANDARD, 1, 0, 2, 3, 4, 35, 37, 44, 68)
books of 0 and of 1 byte|31 31 31|shut(lent(0), lent(1), lent(1, rest=1))
2 to 9 zero bytes|31 31 31 31 31 31 31 31|shut(*(lent(n) for n in range(2, 10)))
2 to 9 bytes, two of them zero|31 31 31 31 31 31 31 31|shut(*(lent(n, {0: [0, 0]}, rest=1) for n in range(2, 10)))
2 and 3 bytes, 0 1 and 1 0 first|31 31 31 31|shut(*(lent(n, {place: [1]}) for n in (2, 3) for place in (0, 1)))
larger books, capacity 0|31 31 31|shut(lent(10), lent(36), lent(44))
a larger book, capacity 100,001|31|shut(lent(3_400_044, {3: [1, 134, 161]}))
larger books, capacity 1 in other lengths|31 31 31 31 31|shut(*(lent(n, {5: [1]}) for n in (10, 36, 43, 45, 78)))
larger books, a higher byte of the capacity 1|31 31 31|shut(*(over(NEW, {place: [1]}) for place in (4, 3, 2)))
a standard book, capacity 1,001|31|shut(lent(32_036, {0: [3, 233]}))
standard books, capacity 1 in other lengths|31 31 31 31 31|shut(*(lent(n, {1: [1]}) for n in (4, 35, 37, 44, 68)))
standard books, capacity 256 in other lengths|31 31 31|shut(*(lent(n, {0: [1]}) for n in (36, 44, 8_714)))
larger books, n above c|32 32 32 32|shut(*(over(NEW, held) for held in ({9: [2]}, {8: [1]}, {7: [1]}, {6: [1]})))
standard books, n above c|32 32|shut(*(over(NEW24, held) for held in ({3: [2]}, {2: [1]})))
books of other lengths, n above c|31 31|shut(lent(45, {5: [1], 9: [2]}), lent(37, {1: [1], 3: [2]}))
a filing, 0 0 first|0 2 0 50 0 0 1 44|files(F, NEW, {9: [1], 10: F, 36: A})
a filing, 0 1 first|0 2 0 50 0 0 1 44|files(F24, NEW24, {3: [1], 4: F24, 28: A})
a filing, 1 0 first|0 2 0 50 0 0 1 44|files(F24, lent(8_196, {0: [1]}), {3: [1], 4: F24, 6_148: A})
a larger book, capacity 1,001|0 2 0 50 0 0 1 44|files(F, lent(34_044, {4: [3, 233]}), {9: [1], 10: F, 26_036: A})
a larger book, filing over old bytes|0 2 0 60 0 0 1 29|files(H, over(TWO, {9: [0]}), {9: [1], 10: H, 62: B})
a larger book, the second filing|0 2 0 60 0 0 1 29|files(H, lent(78, {5: [2], 9: [1], 10: F, 62: A}), {9: [2], 36: H, 70: B})
a standard book, the second filing|0 2 0 60 0 0 1 29|files(H24, lent(68, {1: [2], 3: [1], 4: F24, 52: A}), {3: [2], 28: H24, 60: B})
a larger book, filing 65,536|0 2 0 50 0 0 1 44|files(F, over(LARGEST, {8: [255, 255]}), {7: [1, 0, 0], 1_703_920: F, 3_124_290: A})
a larger book, filing 100,000|0 2 0 50 0 0 1 44|files(F, over(LARGEST, {7: [1, 134, 159]}), {9: [160], 2_599_984: F, 3_400_002: A})
a standard book, filing 1,000|0 2 0 50 0 0 1 44|files(F24, over(LARGEST24, {2: [3, 231]}), {3: [232], 23_980: F24, 31_996: A})
a full larger book|34 34 34|refused(TWO, F, F24, b"")
a full larger book, capacity 100,000|34 34 34|refused(LAST, F, F24, b"")
a full standard book|34 34 34|refused(TWO24, F24, F, b"")
a full standard book, capacity 1,000|34 34 34|refused(LAST24, F24, F, b"")
a larger book, sheets of other lengths|11 11 11 11 11|refused(NEW, b"", F[:24], F[:25], F + bytes(1), F24)
a standard book, sheets of other lengths|11 11 11 11 11|refused(NEW24, b"", F24[:23], F24 + bytes(1), F24 + bytes(2), F)
a larger book, unknown codes|12 12|refused(NEW, over(F, {0: [8]}), over(F, {1: [5]}))
a standard book, unknown codes|12 12|refused(NEW24, over(F24, {0: [8]}), over(F24, {1: [5]}))
a larger book, D 99 and f 1|13 14|refused(NEW, over(F, {6: [0, 99]}), over(F, {17: [1]}))
a standard book, D 99 and f 1|13 14|refused(NEW24, over(F24, {4: [0, 99]}), over(F24, {15: [1]}))
a larger book, t 200, aims 0 and 144|15 16 17|refused(NEW, over(F, {8: [0, 200]}), over(F, {24: [0, 0]}), over(F, {24: [0, 144]}))
a standard book, t 200, aims 0 and 144|15 16 17|refused(NEW24, over(F24, {6: [0, 200]}), over(F24, {22: [0, 0]}), over(F24, {22: [0, 144]}))
a larger book, G|18|refused(NEW, over(F, {6: [39, 17, 1, 44], 14: [4, 139], 24: [4, 139]}))
a standard book, G|18|refused(NEW24, over(F24, {4: [39, 17, 1, 44], 12: [4, 139], 22: [4, 139]}))
a larger book, a jacketed wall|43|refused(NEW, over(F, {0: [7], 16: [0, 1, 0, 1, 0, 1, 0, 1]}))
a standard book, a jacketed wall|43|refused(NEW24, over(F24, {0: [7], 14: [0, 1, 0, 1, 0, 1, 0, 1]}))
a larger book, no such entry|33 33 33|[reads(NEW, 0), reads(over(TWO, {9: [1]}), 1), reads(TWO, 2)]
a larger book, no such entry by a higher byte|33 33 33|[reads(TWO, entry) for entry in (256, 65_536, 4_294_967_296)]
a standard book, no such entry|33 33 33|[reads(NEW24, 0), reads(over(TWO24, {3: [1]}), 1), reads(TWO24, 2)]
a standard book, no such entry by a higher byte|33 33 33|[reads(TWO24, entry) for entry in (256, 65_536, 4_294_967_296)]
a larger book, a byte of the answer differs|35 35 35 35 35 35 35 35|[reads(over(TWO, {70 + i: [9]}), 1) for i in range(8)]
a standard book, a byte of the answer differs|35 35 35 35 35 35 35 35|[reads(over(TWO24, {60 + i: [9]}), 1) for i in range(8)]
a larger book, other stored sheets|35 35 35 35|[*(reads(over(TWO, {10: s}), 0) for s in (H, b"\0", bytes(26))), reads(LAST, 0)]
a standard book, other stored sheets|35 35 35 35|[*(reads(over(TWO24, {4: s}), 0) for s in (H24, b"\0", bytes(24))), reads(LAST24, 0)]
a larger book, entry 0|2 1 0 1 134 160 46 224 5 20 0 200 1 144 3 32 0 0 0 0 0 0 0 0 3 32 0 2 0 50 0 0 1 44|reads(TWO, 0)
a larger book, entry 1|2 1 0 1 134 160 46 224 5 20 0 200 1 144 3 32 0 0 0 0 0 0 0 0 3 31 0 2 0 60 0 0 1 29|reads(TWO, 1)
a larger book, line number 7|2 1 0 0 0 7 46 224 5 20 0 200 1 144 3 32 0 0 0 0 0 0 0 0 3 32 0 2 0 50 0 0 1 44|reads(over(TWO, {10: F7}), 0)
a larger book, entry 99,999|2 1 0 1 134 160 46 224 5 20 0 200 1 144 3 32 0 0 0 0 0 0 0 0 3 32 0 2 0 50 0 0 1 44|reads(LAST, 99_999)
a standard book, entry 999|2 1 0 7 46 224 5 20 0 200 1 144 3 32 0 0 0 0 0 0 0 0 3 32 0 2 0 50 0 0 1 44|reads(LAST24, 999)
a standard book, entry 0|2 1 0 7 46 224 5 20 0 200 1 144 3 32 0 0 0 0 0 0 0 0 3 32 0 2 0 50 0 0 1 44|reads(TWO24, 0)
a standard book, entry 1|2 1 0 7 46 224 5 20 0 200 1 144 3 32 0 0 0 0 0 0 0 0 3 31 0 2 0 60 0 0 1 29|reads(TWO24, 1)
an old reader, a standard book|2 1 0 7 46 224 5 20 0 200 1 144 3 32 0 0 0 0 0 0 0 0 3 32 0 2 0 50 0 0 1 44|reads(TWO24, 0, STANDARD)
an old reader, larger books|31 31 31 31|[reads(book, 0, STANDARD) for book in (NEW, TWO, over(NEW, {9: [2]}), LAST)]
END
python3 "$made/calls.py" <"$made/rows" >"$made/lines" 2>&1 || echo 'it failed' >>"$made/lines"
while IFS='|' read -r name text _ <&3; do
    IFS= read -r result <&4 || result='it says nothing'
    echo "$result" >"$made/out"
    echo "$text" | report "$name"
done 3<"$made/rows" 4<"$made/lines"

gives 'the worked larger book' 'sheet F, line 100,000: 2 1 0 1 134 160 46 224 5 20 0 200 1 144 3 32 0 0 0 0 0 0 0 0 3 32
a new book of capacity 1
  sizes: 0 0 0 0 0 1 0 0 0 0
  sheets: 0 0 0 0 0 0 0 0 0 0 0 0 0 0 0 0 0 0 0 0 0 0 0 0 0 0
  answers: 0 0 0 0 0 0 0 0
filing F: 0 2 0 50 0 0 1 44
the book then
  sizes: 0 0 0 0 0 1 0 0 0 1
  sheets: 2 1 0 1 134 160 46 224 5 20 0 200 1 144 3 32 0 0 0 0 0 0 0 0 3 32
  answers: 0 2 0 50 0 0 1 44
reading entry 0
  sheet: 2 1 0 1 134 160 46 224 5 20 0 200 1 144 3 32 0 0 0 0 0 0 0 0 3 32
  answer: 0 2 0 50 0 0 1 44
reading entry 1: refused 33
filing F again: refused 34
reading entry 0 as an old reader: refused 31
filing the 24 bytes of F in a new larger book: refused 11
filing the 26 bytes of F in a new standard book: refused 11' python3 tools/book.py

for example in plant rows cold cheap jackets; do
    python3 examples/$example.py >"$made/out"
    report "the sheets of $example" <examples/$example.sheets
    python3 tools/listing.py <examples/$example.sheets >"$made/out"
    report "the listing of $example" <examples/$example.txt
done
