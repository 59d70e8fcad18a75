# demo: the drawings of README.md are those that it makes, and README.md says what it prints

expect 0 demo "$work/film"
for drawing in lost drift; do
    cmp "$work/film/$drawing.png" "../docs/pictures/$drawing.png"
done
says "later: 1000 of 1000 pictures are equal to the recorder's, sample for sample."
readme=$(tr '\n' ' ' <../README.md)
# told WORDS: README.md has them
told() { case $readme in *"$1"*) ;; *) fail "README.md does not say: $1" ;; esac; }
# difference PICTURE: the largest, as the table has it
difference() { awk -v picture="$1" '$1 == picture && NF == 3 { print $3 }' "$log"; }
told "at most $(difference 0) grey levels, in the 24th after it by $(difference 24):"
told "differs by at most $(sed -n 's/^film differs by at most //p' "$log")"
expect 0 compare "$work/film/recorder.y4m" "$work/film/library.y4m"
says "25 pictures: all samples"
expect 1 compare "$work/film/recorder.y4m" "$work/film/old-rule.y4m"
says "25 pictures: 0 equal, 25 different"
echo "tool: the demonstration's drawings and figures are those of README.md"
