# a full disk: the standard output, the error stream, and the files that are written

# full WORDS..: `deblock WORDS..` says so where the standard output is full
full() {
    last="deblock $*"
    got=0
    "$deblock" "$@" >/dev/full 2>"$log" || got=$?
    ends 2
    says "the standard output: No space left on device"
}

if [ -c /dev/full ]; then
    full --help
    full --version
    full demo "$work/demo"
    full replay "$good"
    full compare "$good" "$good"
    last="deblock replay no-such-file"
    got=0
    "$deblock" replay no-such-file >"$log" 2>/dev/full || got=$?
    ends 2
    expect 2 compare $raw --png /dev/full
    says "there is such a file already"
    expect 2 compare $raw --png /dev/full --force
    says "/dev/full: No space left on device"
    [ -c /dev/full ] || fail "/dev/full is gone"
else
    echo "tool: no /dev/full here, so the standard output was not tried on a full disk"
fi
expect 2 demo "$log"
says "$log: "

# a file that cannot be written to its end does not stay; these two differ nearly everywhere
noise=$((176 * 144 * 3 / 2))
tail -c +100 "$data/original.dbvs" | head -c "$noise" >"$work/noise.yuv"
tail -c "$noise" "$data/original.dbvs" >"$work/other.yuv"
(
    trap '' XFSZ
    ulimit -f 8
    expect 2 compare "$work/noise.yuv" "$work/other.yuv" --size 176x144 --png "$png"
    says "File too large"
    expect 2 replay "$wide" --y4m "$work/full"
    says "full/b-003.y4m: File too large"
)
gone "$png"
gone "$work/full/b-003.y4m"
echo "tool: a full disk is told"
