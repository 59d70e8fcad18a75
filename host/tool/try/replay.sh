# replay: all recordings, one, several, those that differ, and those that cannot be read

pictures=$(($(find "$data" -name '*.dbv' | wc -l) + 120)) # 120 in original.dbvs
expect 0 replay "$data"
says "The old rule, down the columns, gives other planes than the recorder's in 70 of 201 pictures."
says "Pictures: $pictures equal, 0 different, 0 incomplete. Files not read: 0."
expect 0 replay "$data/original.dbvs"
says "original.dbvs, picture 3: "
says "macroblocks, no grids: equal"
says "Pictures: 120 equal, 0 different"
expect 0 replay "$good"
says "random orders, seeds 0 to 99: planes as the recorder's in 100 of 100"
for example in example example-two-offsets example-tables example-slices; do
    # examples/record.c writes them
    [ ! -e "../target/$example.dbv" ] || expect 0 replay "../target/$example.dbv"
done
expect 1 replay "$good" "$data/plane.bad"
says "1 sample differs (Y 0, U 0, V 1)"
says "random order of seed 0: "
says "Pictures: 1 equal, 1 different, 0 incomplete. Files not read: 0."
expect 1 replay "$data/strength.bad"
says "strengths: 1 macroblock differs, the first is"

# exchanged FILE: the recording with U's chroma offset and V's, bytes 11 and 12, exchanged
exchanged() {
    head -c 11 "$1"
    tail -c +13 "$1" | head -c 1
    tail -c +12 "$1" | head -c 1
    tail -c +14 "$1"
}

# Luma knows of neither offset, so it stays equal. In cr-000 the two come to the same samples.
for recording in "$data"/cr-00[1-4].dbv "$data/real-010.dbv"; do
    exchanged "$recording" >"$work/exchanged.bad"
    exchanged "$work/exchanged.bad" | cmp - "$recording"
    expect 1 replay "$work/exchanged.bad"
    says "differ (Y 0, U "
    says "planes as the recorder's in 0 of 100"
done

head -c 1000 "$good" >"$work/cut.dbv"
printf 'DBV1\377\377\377\377\010\001\000\000\000\000' >"$work/large.dbv"
cat "$good" "$work/cut.dbv" >"$work/second-cut.dbv"
printf 'DBV1\002\000\002\000\012\001\000\000\000\000' >"$work/ten-bits.dbv"
mkdir "$work/empty"
expect 2 replay no-such-file
says "no-such-file: No such file"
expect 2 replay README.md
says "README.md: at byte 0: this is no recording"
expect 2 replay "$work/large.dbv"
says "at byte 4: 65535 by 65535 macroblocks is no size"
expect 2 replay "$data/cut.bad"
says "the strengths: 128 bytes are wanted, the file ends after 127"
expect 2 replay "$work/second-cut.dbv"
says "Pictures: 1 equal, 0 different, 0 incomplete. Files not read: 1."
expect 2 replay "$work/ten-bits.dbv"
says "10-bit samples"
expect 2 replay "$work"
says "Files not read: 4."
expect 2 replay "$work/empty"
says "no file of this folder is called *.dbv or *.dbvs"
expect 2 replay "$work/empty" "$data/plane.bad" no-such-file "$good"
says "Pictures: 1 equal, 1 different, 0 incomplete. Files not read: 2."
if [ "$(id -u)" != 0 ]; then # nothing is unreadable for root
    cp "$good" "$work/secret.dbv"
    chmod 000 "$work/secret.dbv"
    expect 2 replay "$work/secret.dbv"
    says "Permission denied"
    rm -f "$work/secret.dbv"
fi
echo "tool: all recordings replayed and equal"
