# replay: slices with settings of their own, by other modes, offsets and numbers, left out, damaged and cut

# How many samples differ by a slice of mode 0, not 2; by a macroblock of the slice beside its own, which has
# the same record; by offset B 0, not 4.
while read -r name samples; do
    expect 1 replay "$data/$name.bad"
    says "strengths: as in the file"
    says "$samples samples differ (Y "
    says "planes as the recorder's in 0 of 100"
done <<'END'
mode 125
number 80
slice-offset 32
END

# plain NAME MACROBLOCKS SLICES: the recording without its slices, so that A and B are 0 and no edge is off
plain() {
    table=$((14 + 768 * $2 + 2))
    numbers=$((table + 2 + 3 * $3 + $2))
    head -c 10 "$data/$1.dbv"
    case $1 in *-b-* | real-006) printf '\001' ;; *) printf '\000' ;; esac # list 1
    tail -c +12 "$data/$1.dbv" | head -c $((table - 11))
    tail -c +$((table + 2 + 3 * $3 + 1)) "$data/$1.dbv" | head -c "$2"
    tail -c +$((numbers + 2 * $2 + 1)) "$data/$1.dbv"
}

while read -r name macroblocks slices samples; do
    plain "$name" "$macroblocks" "$slices" >"$work/plain.bad"
    expect 1 replay "$work/plain.bad"
    says "strengths: as in the file"
    says "$samples samples differ (Y "
done <<'END'
slices-b-000 4 2 25
slices-b-001 9 2 514
slices-b-002 16 3 243
slices-p-000 4 2 125
slices-p-001 9 3 505
slices-p-002 16 5 1100
slices-p-003 120 3 6501
slices-p-004 30 8 2713
real-006 63 2 208
real-007 42 5 1041
END

slices=$data/slices-p-002.dbv       # 4 by 4 macroblocks, 5 slices
table=$((14 + 768 * 16 + 2))        # where the table starts, with its length
numbers=$((table + 2 + 3 * 5 + 16)) # where the numbers do

# damaged OFFSET TEXT: with a 7 at this place it is not read, which is told so
damaged() {
    cp "$slices" "$work/damaged.bad"
    change "$work/damaged.bad" "$1"
    expect 2 replay "$work/damaged.bad"
    says "damaged.bad: at byte $1: $2"
}
damaged $((table - 2)) "offset A: 7 beside slices, which have their own"
damaged $((table + 2)) "a slice's mode: 7 is out of range"
damaged $((numbers + 2)) "the slice numbers: 7 is outside a table of 5"
cut_off $((table + 9)) "$slices" \
    "at byte $((table + 9)): a slice's offset A: 1 bytes are wanted, the file ends after 0"
cut_off $((numbers + 5)) "$slices" \
    "at byte $numbers: the slice numbers: 32 bytes are wanted, the file ends after 5"

# the second of three slices is late: what has arrived of the third waits for it
late=$data/slices-p-003.dbv
expect 0 replay "$late" --order tool/sample-slices-order.txt
says "the given order: 0 done: 120; 14 (its left, upper or upper right neighbour is not visited yet): 43"
expect 1 replay "$late" --order tool/sample-slices-order.txt --once
says "never visited: 19 of 120 macroblocks; final: 89, as the recorder's: 89"

# a recording with all that one can have, and offset A of the third slice of its bottom field changed
mixed=$data/mixed-fields-001.dbv    # two fields of 3 by 3 macroblocks
bottom=$((14 + 2 * 768 * 9 + 2094)) # the bottom field's part: the top field's has 2094 bytes
expect 0 replay "$mixed"
says "two fields of 3 by 3 macroblocks: equal"
says "random orders of both fields, seeds 0 to 99: planes as the recorder's in 100 of 100"
cp "$mixed" "$work/mixed.bad"
change "$work/mixed.bad" $((bottom + 2 + 2 + 3 * 2 + 1))
expect 1 replay "$work/mixed.bad"
says "bottom field: 28 samples differ (Y 22, U 0, V 6), by at most "
says "planes as the recorder's in 0 of 100"
echo "tool: slices lent, each with its own settings, and what is wrong with one named"
