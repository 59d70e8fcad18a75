# host/native-staticlib: the text beside the archive, and where the proof fails neither

here=$(pwd)
stub=$here/$work/stub
archive=$here/$work/libdeblock.a
mkdir "$stub"

# prove STATUS COMMAND: native-staticlib ends with STATUS where rt is this command
prove() {
    printf '#!/bin/sh\n%s\n' "$2" >"$stub/rt"
    chmod +x "$stub/rt"
    echo old >"$archive"
    echo old >"${archive%.a}.txt"
    last="native-staticlib with $2"
    got=0
    PATH=$stub:$PATH ./native-staticlib deblock_c "$archive" >"$log" 2>&1 || got=$?
    ends "$1"
}

# refuse STATUS COMMAND: the same, and neither archive nor text stays
refuse() {
    prove "$@"
    gone "$archive"
    gone "${archive%.a}.txt"
}

refuse 1 'echo "fn f: not proved"; exit 1'
says "fn f: not proved"
refuse 3 'exit 3'
refuse 1 'echo "logic=none"'
says "rt did not say logic=proved"

proof='logic=proved functions=9 target=x86_64-unknown-linux-gnu'
prove 0 "[ \$1 = version ] && echo 'a kit' || echo '$proof'"
cmp "$archive" ../crates/deblock_c/out/libdeblock_c.a
printf 'toolchain: a kit\narchive: for x86_64, as rt wrote it\nproof: %s\n' "$proof" | cmp - "${archive%.a}.txt"

last="native-staticlib deblock_c libdeblock.o"
got=0
./native-staticlib deblock_c libdeblock.o >"$log" 2>&1 || got=$?
ends 2
says "usage: native-staticlib NAME OUT.a [FLAGS]"
last="native-staticlib in /"
got=0
(cd / && "$here/native-staticlib" deblock_c "$archive") >"$log" 2>&1 || got=$?
ends 2
says "no crates.txt here or above"
echo "tool: an archive stands beside its text or not at all"
