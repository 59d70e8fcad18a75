# replay: the two fields of a frame, alone and beside frames, with other bytes, cut, and in given orders

fields=$data/fields-p-003.dbv # two fields of 5 by 4 macroblocks
planes=$((768 * 20))          # bytes of the frame's planes
own=$((2 + 145 * 20))         # bytes of what a field has to itself, its strengths last
expect 0 replay "$fields"
says "fields-p-003.dbv: two fields of 5 by 4 macroblocks: equal"
for order in "raster order, top field first" "raster order, bottom field first" "raster order, fields in turn"; do
    says "$order: 0 done: 40"
done
says "rows from the lowest up, fields in turn: 0 done: 40; 14 ("
says "random orders of both fields, seeds 0 to 99: planes as the recorder's in 100 of 100"
expect 1 replay "$fields" --once
says "top field: never visited: 15 of 20 macroblocks; final: 0, as the recorder's: 0"
says "of 4000 macroblocks; final: "

mkdir "$work/both"
cp "$good" "$fields" "$work/both"
expect 0 replay "$work/both"
says "b-000.dbv: 2 by 2 macroblocks: equal"
says "Pictures: 2 equal, 0 different, 0 incomplete. Files not read: 0."
cat "$good" "$fields" "$good" >"$work/both/three.dbvs"
expect 0 replay "$work/both/three.dbvs"
says "three.dbvs, picture 2: two fields of 5 by 4 macroblocks: equal"

# the last sample of V, in the last line, and a count of the top field
cp "$fields" "$work/both/plane.dbv"
change "$work/both/plane.dbv" $((14 + 2 * planes - 1))
cp "$fields" "$work/both/count.dbv"
change "$work/both/count.dbv" $((14 + 2 * planes + 2 + 20 + 2 * 320 - 1))
expect 1 replay "$work/both"
says "bottom field: 1 sample differs (Y 0, U 0, V 1), by at most "
says "bottom field: macroblocks (column, row): (4, 3)"
says "bottom field: V at (39, 31): "
says "top field: strengths: 1 macroblock differs, the first is (4, 3)"
says "Pictures: 5 equal, 2 different, 0 incomplete. Files not read: 0."
head -c $((14 + 2 * planes + own)) "$fields" >"$work/both/one.dbv"
expect 2 replay "$work/both/one.dbv"
says "offset A: 1 bytes are wanted, the file ends after 0, in the bottom field"
cp "$fields" "$work/both/strength.dbv"
change "$work/both/strength.dbv" $((14 + 2 * planes + own - 1))
expect 2 replay "$work/both/strength.dbv"
says "at byte $((14 + 2 * planes + own - 1)): the strengths: 7 is out of range, in the top field"

echo 'top 9 9' >"$work/field-outside.txt"
printf 'bottom 0 0\n0 0\n' >"$work/no-field.txt"
printf 'top 0 0\ntop slice 19 2\n' >"$work/field-past.txt"
printf 'top 0 0\nmiddle 0 0\n' >"$work/middle.txt"
expect 0 replay "$fields" --order tool/sample-fields-order.txt
says "the given order: 0 done: 40; 14 ("
expect 1 replay "$fields" --order tool/sample-fields-order.txt --once
says "bottom field: never visited: 10 of 20 macroblocks; final: 5, as the recorder's: 5"
expect 1 replay "$fields" --order "$work/field-outside.txt"
says "the given order: 2 (the macroblock is outside the picture"
expect 2 replay "$fields" --order "$work/no-field.txt"
says "no-field.txt: line 2: the picture has two fields, so 'top' or 'bottom' must come first"
expect 2 replay "$good" --order "$work/no-field.txt"
says "no-field.txt: line 1: the picture is a frame, so no field can be named"
expect 2 replay "$fields" --order "$work/field-past.txt"
says "field-past.txt: line 2: 'slice 19 2' reaches past a picture of 5 by 4 macroblocks"
expect 2 replay "$fields" --order "$work/middle.txt"
says "middle.txt: line 2: 'x y' or 'slice FIRST COUNT' belongs here, after 'top' or 'bottom' for a field"

# compared as the frame that they are, with raw planes too
tail -c +$((15 + planes)) "$fields" | head -c "$planes" >"$work/frame.yuv"
expect 0 compare "$fields" "$work/frame.yuv" --size 80x128
says "1 picture: all samples"
expect 1 compare "$fields" "$work/both/plane.dbv"
says "V at (39, 63): "
says "in 1 macroblock; the first is (4, 7)"
echo "tool: fields replayed, each with its own marks, and what is wrong with one named"
