# compare: recordings, and raw planes of a size that is no multiple of 16

picture=$((18 * 34 * 3 / 2))
head -c $((3 * picture)) /dev/zero >"$work/a.yuv"
cp "$work/a.yuv" "$work/b.yuv"
change "$work/b.yuv" $((2 * picture - 1)) # the last sample of V in the second picture
change "$work/b.yuv" $((2 * picture))     # the first of Y in the third
head -c $((2 * picture)) "$work/a.yuv" >"$work/short.yuv"
head -c $((3 * picture - 1)) "$work/a.yuv" >"$work/cut.yuv"
: >"$work/none.yuv"

expect 0 compare "$good" "$good"
says "1 picture: all samples of Y, U and V are equal"
expect 0 compare "$data/original.dbvs" "$data/original.dbvs"
says "120 pictures: all samples"
expect 1 compare "$good" "$data/b-004.dbv"
says "Picture 1: the sizes differ: 32 by 32 and 80 by 64 pixels"
expect 1 compare "$data/upper-right.dbv" "$data/plane.bad"
says "Picture 1: 1 sample differs (Y 0, U 0, V 1), by at most "
says "in 1 macroblock; the first is (1, 1)"
says "1 picture: 0 equal, 1 different; the first difference is in picture 1, macroblock (1, 1)"
says "--png FILE writes the first difference"

expect 0 compare "$work/a.yuv" "$work/a.yuv" --size 18x34
says "3 pictures: all samples"
expect 1 compare "$work/a.yuv" "$work/b.yuv" --size 18x34
says "V at (8, 16): 0 and 7"
says "Picture 3: 1 sample differs (Y 1, U 0, V 0), by at most 7, in 1 macroblock; the first is (0, 0)"
says "3 pictures: 1 equal, 2 different; the first difference is in picture 2, macroblock (1, 2)"
expect 1 compare "$work/short.yuv" "$work/a.yuv" --size 18x34
says "a.yuv: 1 picture more than the other file has"
expect 1 compare "$work/a.yuv" "$good" --size 18x34
says "the sizes differ: 18 by 34 and 32 by 32 pixels"
expect 2 compare "$work/a.yuv" "$work/cut.yuv" --size 18x34
says "picture 3: $picture bytes are wanted, the file ends after $((picture - 1))"
expect 2 compare "$work/none.yuv" "$work/a.yuv" --size 18x34
says "picture 1: $picture bytes are wanted, the file ends after 0"
expect 2 compare "$work/a.yuv" "$work/a.yuv"
says "for raw planes give --size"
expect 2 compare "$good" "$good" --size 32x32
says "--size is of raw planes, and both files say their size themselves"
expect 2 compare "$good" "$work/cut.dbv"
expect 2 compare "$good" "$work"
says "Is a directory"

# long work is seen to go on; this one has no end
last="deblock compare /dev/zero /dev/zero"
"$deblock" compare /dev/zero /dev/zero --size 64x64 2>"$log" &
endless=$!
for second in 1 2 3 4 5 6 7 8 9; do
    sleep 1
    ! grep -q '^  pictures: ' "$log" || break
done
kill "$endless"
wait "$endless" 2>/dev/null || true
says "  pictures: "
echo "tool: pictures compared, of recordings and raw"
