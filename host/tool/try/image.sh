# compare --png: the difference as a picture, which takes no file's place unasked

png=$work/difference.png
raw="$work/a.yuv $work/b.yuv --size 18x34" # four words, of try/compare.sh
expect 1 compare $raw --png "$png"
says "The difference of picture 2, 16 times as large: $png"
head -c 4 "$png" | tail -c 3 | grep -q PNG || fail "$png is no PNG file"
cp "$png" "$work/kept.png"
expect 2 compare $raw --png "$png"
says "there is such a file already"
cmp "$png" "$work/kept.png"

echo 'of an earlier run' >"$png"
expect 1 compare $raw --png "$png" --force
cmp "$png" "$work/kept.png"
expect 0 compare "$good" "$good" --png "$png" --force
says "removed, since it is of an earlier run"
gone "$png"
echo 'of an earlier run' >"$png"
expect 1 compare "$good" "$wide" --png "$png" --force
gone "$png"
expect 0 compare "$good" "$good" --png "$png"
gone "$png"

expect 2 compare $raw --png "$work/b.yuv" --force
says "one of the two files"
expect 2 compare $raw --png "$work" --force
says "this is a folder"
expect 2 compare $raw --png "$work/no-folder/x.png"
says "no-folder/x.png: No such file"
expect 2 compare "$work/a.yuv" "$work/b.yuv" --size 65536x65536 --png "$png"
says "pictures this large"
gone "$png"
gone difference.png
echo "tool: nothing is overwritten unasked"
