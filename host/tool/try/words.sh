# the words of the command line: file names that are not UTF-8, options, help and version

name=$(printf '\377')
odd=$work/odd-$name
mkdir "$odd"
cp "$good" "$odd/$name.dbv"
expect 0 replay "$odd"
expect 0 replay "$odd/$name.dbv"
expect 0 compare "$good" "$odd/$name.dbv"
expect 1 compare $raw --png "$odd/$name.png"
[ -s "$odd/$name.png" ] || fail "there is no difference called by a name that is not UTF-8"
expect 0 demo "$odd/demo"
expect 0 replay "$odd" --y4m "$odd/films"
[ -s "$odd/films/$name.y4m" ] || fail "there is no film called by a name that is not UTF-8"
expect 2 replay "$odd/none"
expect 2 replay "$good" --order "$odd/none"
expect 2 "$name"
expect 2 compare "$good" "$good" --size "$name"

for twice in "replay a --order o --order" "replay a --y4m f --y4m" "compare a b --size 2x2 --size" \
    "compare a b --png p --png"; do
    expect 2 $twice o
    says "is given twice"
done
for twice in "replay a --once --once" "compare a b --png p --force --force"; do
    expect 2 $twice
    says "is given twice"
done
expect 2 compare $raw --force
expect 2 compare a b --size 17x16
expect 2 compare "$good"
expect 2 replay
expect 2 replay "$good" --png p
expect 2 replay "$good" --order
expect 2 replay "$good" --force
says "--force goes with --y4m"
expect 2 --version now
expect 2 demo a b
expect 2 no-such-command
expect 2
says "demo, replay or compare?"

expect 0 --help
says "Exit status"
[ "$(awk 'length > 110' "$log")" = "" ] || fail "a line of --help is longer than 110 columns"

expect 0 --version
says "deblock $(sed -n 's/^version = "\(.*\)"/\1/p' Cargo.toml)"
if [ -e ../.git ]; then says "commit: $(git rev-parse --short=12 HEAD)"; else says "commit: unknown"; fi
says "toolchain: $(rt version)"
says "archive: for $(uname -m), "
says "proof: logic=proved functions="
echo "tool: it ends as it must on good and on bad words; its version:"
cat "$log"
