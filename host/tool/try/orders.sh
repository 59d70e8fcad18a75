# replay: order files, and --once

echo '9 9' >"$work/outside.txt"
printf '0 0\n0 zero\n' >"$work/word.txt"
printf '# too long\nslice 3 2\n' >"$work/past.txt"
printf '1 1\n0 0\n0 1\n1 0\n' >"$work/late.txt"
printf '\377' >"$work/no-text.txt"
expect 0 replay "$wide" "$data/p-003.dbv" --order tool/sample-order.txt
says "Pictures: 2 equal"
expect 0 replay "$wide" --order tool/sample-order.txt
says "the given order: 0 done: 120; 14 ("
expect 1 replay "$good" --order "$work/outside.txt"
says "never visited: 4 of 4 macroblocks; final: 0, as the recorder's: 0"
expect 2 replay "$good" --order "$work/word.txt"
says "word.txt: line 2: 'x y' or 'slice FIRST COUNT' belongs here"
expect 2 replay "$good" --order "$work/past.txt"
says "past.txt: line 2: 'slice 3 2' reaches past a picture of 2 by 2 macroblocks"
expect 2 replay "$good" --order "$work/no-text.txt"
says "no-text.txt: at byte 0: this is no text"
expect 2 replay "$good" --order "$work"
says "Is a directory"

# (1, 1) and (0, 1) come before those that they wait for
expect 0 replay "$good" --order "$work/late.txt"
expect 1 replay "$good" --order "$work/late.txt" --once
says "b-000.dbv: 2 by 2 macroblocks: INCOMPLETE"
says "never visited: 2 of 4 macroblocks; final: 0, as the recorder's: 0"
expect 1 replay "$wide" --once
says "planes as the recorder's in 0 of 100"
says "of 12000 macroblocks; final: "
says "Pictures: 0 equal, 0 different, 1 incomplete. Files not read: 0."
echo "tool: orders by macroblock and by slice, and what does not fit"
