# replay: reference tables, one with another entry, left out, cut, and just one of the two

expect 1 replay "$data/table.bad"
says "strengths: 1 macroblock differs, the first is (2, 1)"
says "planes as the recorder's in 100 of 100"

# without NAME FLAGS MACROBLOCKS BYTES: the recording without its tables, which have so many bytes and follow
# the offsets. What was an index is compared as a picture's number.
without() {
    tables=$((14 + 768 * $3 + 2))
    head -c 10 "$data/$1.dbv"
    printf "\\00$2"
    tail -c +12 "$data/$1.dbv" | head -c $((tables - 11))
    tail -c +$((tables + $4 + 1)) "$data/$1.dbv"
}

# Where two indices of one picture meet, an edge is drawn that the recorder did not draw: how often, FORMAT.md
# of the recordings says.
while read -r status name flags macroblocks bytes strengths; do
    without "$name" "$flags" "$macroblocks" "$bytes" >"$work/by-index.bad"
    expect "$status" replay "$work/by-index.bad"
    says "strengths: $strengths"
done <<'END'
1 lists-p-000 0 4 16 1 macroblock differs, the first is (0, 1)
1 lists-p-001 0 9 14 7 macroblocks differ, the first is (1, 0)
1 lists-p-002 0 16 16 5 macroblocks differ, the first is (1, 0)
0 lists-b-000 1 4 26 as in the file
1 lists-b-001 1 9 22 3 macroblocks differ, the first is (2, 1)
1 lists-b-002 1 16 26 6 macroblocks differ, the first is (2, 1)
0 real-008 0 42 14 as in the file
END

lists=$data/lists-b-001.dbv  # 3 by 3 macroblocks, tables of 6 and 3 pictures
list0=$((14 + 768 * 9 + 2))  # where list 0's table starts, with its length
list1=$((list0 + 2 + 2 * 6)) # where list 1's does
cut_off $((list1 + 1)) "$lists" \
    "at byte $list1: the length of list 1's table: 2 bytes are wanted, the file ends after 1"
cut_off $((list0 + 5)) "$lists" \
    "at byte $((list0 + 2)): list 0's table: 12 bytes are wanted, the file ends after 3"
{
    head -c "$list1" "$lists"
    printf '\000\000'
    tail -c +$((list1 + 2 + 2 * 3 + 1)) "$lists"
} >"$work/one-table.bad"
expect 1 replay "$work/one-table.bad"
says "strengths: 9 refusals, the first at (0, 0) with 5 ("
echo "tool: reference tables lent, and what is wrong with one named"
