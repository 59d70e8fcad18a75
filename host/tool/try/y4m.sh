# films: those of other programs (crates/streams/README.md), those that are refused, and those that replay writes

made=../crates/streams/data
bytes=$((48 * 32 * 3 / 2)) # of a picture's planes
expect 0 compare "$made/ffmpeg.y4m" "$made/ffmpeg.yuv" --size 48x32
says "3 pictures: all samples of Y, U and V are equal"
expect 0 compare "$made/ffmpeg.yuv" "$made/mjpegtools.y4m" --size 48x32
says "3 pictures: all samples"
expect 0 compare "$made/mjpegtools.y4m" "$made/ffmpeg.y4m"
says "3 pictures: all samples"
expect 2 compare "$made/mjpegtools.y4m" "$made/ffmpeg.y4m" --size 48x32
says "both files say their size themselves"
cp "$made/ffmpeg.y4m" "$work/film.dbv" # a name tells nothing
expect 0 compare "$work/film.dbv" "$made/ffmpeg.yuv" --size 48x32
expect 1 compare "$made/ffmpeg.y4m" "$good"
says "Picture 1: the sizes differ: 48 by 32 and 32 by 32 pixels"

# film HEADER LINE..: a film with these lines, each LINE before the planes of the next picture
film() {
    printf '%s\n' "$1"
    shift
    at=1
    for line in "$@"; do
        printf '%s\n' "$line"
        tail -c +"$at" "$made/ffmpeg.yuv" | head -c "$bytes"
        at=$((at + bytes))
    done
}

film "YUV4MPEG2 C420 H00032 W048" FRAME "FRAME Ip XX" FRAME >"$work/film.y4m"
expect 0 compare "$work/film.y4m" "$made/ffmpeg.y4m"
start=$((27 + 6 + bytes)) # of the second picture
cp "$work/film.y4m" "$work/other.y4m"
change "$work/other.y4m" $((start + 12 + bytes - 1)) # its last sample, of V
expect 1 compare "$work/film.y4m" "$work/other.y4m" --png "$work/film.png"
says "Picture 2: 1 sample differs (Y 0, U 0, V 1), by at most "
says "V at (23, 15): "
says "The difference of picture 2, 16 times as large: $work/film.png"
says "3 pictures: 2 equal, 1 different; the first difference is in picture 2, macroblock (2, 1)"
film "YUV4MPEG2 W48 H32" FRAME FRAME >"$work/short.y4m"
expect 1 compare "$work/film.y4m" "$work/short.y4m"
says "film.y4m: 1 picture more than the other file has"

bad=$work/bad.y4m
# refused BYTE WORDS: the bad film is, at this byte and in these words
refused() {
    expect 2 compare "$bad" "$made/ffmpeg.y4m"
    says "bad.y4m: at byte $1: $2"
}
# header_refused HEADER WORDS: a film with this header line is
header_refused() {
    film "$1" FRAME >"$bad"
    refused 0 "the header line $2"
}
header_refused "YUV4MPEG2 W48 H32 " "is refused with 15 (the stream's header line or FRAME line is malformed"
header_refused "YUV4MPEG2 W48 W48 H32" "is refused with 15 ("
header_refused "YUV4MPEG2 W48 H30 C422" "is refused with 16 (the stream's C tag is not 420, "
says "'YUV4MPEG2 W48 H30 C422'"
header_refused "YUV4MPEG2 W48 H30" "is refused with 17 (a side of the stream's picture is no multiple of 16, "
says "; to compare films of such a size, turn them into raw planes and give --size"
header_refused "YUV4MPEG2 W48 H4112" "is refused with 17 ("
head -c 70000 /dev/zero | tr '\0' x >"$work/long"
header_refused "YUV4MPEG2 W48 H32 $(cat "$work/long")" \
    "has more than 65536 bytes, the most that this tool takes"

end=$((18 + 12 + 2 * bytes)) # of the short film
film "YUV4MPEG2 W48 H32" FRAMES >"$bad"
refused 18 "picture 1 is refused with 15 ("
says "it starts with 'FRAMES'"
echo "YUV4MPEG2 W48 H32" >"$bad"
refused 18 "picture 1 is refused with 15 ("
says "the file ends where its FRAME line belongs"
{ cat "$work/short.y4m"; echo; } >"$bad"
refused "$end" "picture 3 is refused with 15 ("
cat "$work/short.y4m" "$work/long" >"$bad"
refused "$end" "picture 3: its FRAME line has more than 65536 bytes, the most that this tool takes"
head -c $((start + 12 + bytes - 1)) "$work/film.y4m" >"$bad"
refused "$start" "picture 2 is refused with 18 (the stream is cut short"
says "$bytes bytes are wanted after its FRAME line, the file ends after $((bytes - 1))"
expect 2 replay "$work/film.y4m"
says "this is no recording"
echo "tool: films of other programs read, and what is wrong with one named"

# what replay writes is what the recordings have: a film for each file of them, and for each size in turn
out=$work/films
cat "$data"/pipe-00*.dbv >"$work/pipe.dbvs"
cat "$good" "$good" "$wide" "$good" >"$work/sizes.dbvs"
expect 0 replay "$work/pipe.dbvs" "$work/sizes.dbvs" "$fields" --y4m "$out"
says "$out: 5 films of 13 pictures written, as the library filtered them"
expect 0 compare "$out/pipe.y4m" "$work/pipe.dbvs"
says "8 pictures: all samples"
expect 0 compare "$out/fields-p-003.y4m" "$work/frame.yuv" --size 80x128 # of try/fields.sh
says "1 picture: all samples"
cat "$good" "$good" >"$work/twice.dbvs"
expect 0 compare "$out/sizes.y4m" "$work/twice.dbvs"
says "2 pictures: all samples"
expect 0 compare "$out/sizes-2.y4m" "$wide"
expect 0 compare "$out/sizes-3.y4m" "$good"
gone "$out/sizes-4.y4m"
expect 1 replay "$data/plane.bad" --y4m "$out" # the library's planes, not those of the file
expect 0 compare "$out/plane.y4m" "$data/upper-right.dbv"

# in a given order; of the macroblocks that do not come all samples are inverted
echo '0 0' >"$work/one.txt"
expect 0 replay "$wide" --order tool/sample-order.txt --y4m "$out"
expect 0 compare "$out/b-003.y4m" "$wide"
expect 1 replay "$good" --order "$work/one.txt" --y4m "$out"
expect 1 compare "$out/b-000.y4m" "$good"
says "in 4 macroblocks; the first is (0, 0)"

# nothing is overwritten unasked, and no two films go to one file
expect 2 replay "$data/pipe-000.dbv" "$good" --y4m "$out"
says "b-000.y4m: there is such a file already; --force replaces it"
gone "$out/pipe-000.y4m"
expect 0 replay "$good" --y4m "$out" --force
expect 0 compare "$out/b-000.y4m" "$good"
mkdir "$work/again"
cp "$good" "$work/again"
expect 2 replay "$good" "$work/again" --y4m "$out" --force
says "would both be written here; replay them apart"
cp "$good" "$work/again/sizes-2.dbv"
expect 2 replay "$work/sizes.dbvs" "$work/again/sizes-2.dbv" --y4m "$work/late"
says "sizes-2.dbv would both be written here; replay them apart"
cp "$good" "$work/again/x.y4m"
expect 2 replay "$work/again/x.y4m" --y4m "$work/again" --force
says "x.y4m: this is one of the recordings"
cmp "$work/again/x.y4m" "$good"
expect 2 replay "$good" --y4m "$log"
says "$log: "
expect 2 replay no-such-file "$data/cut.bad" --y4m "$work/none"
says "$work/none: 0 films of 0 pictures written"
gone "$work/none/cut.y4m"
echo "tool: pictures written as films, which are those of the recordings"
