# ./demo where there is no cargo, and where a proof fails, in a folder of its own and with a stand-in for rt

clone=$(pwd)/$work/clone
mkdir -p "$clone/bin" "$clone/crates/arrivals"
cp ../demo "$clone/demo"

# demo_with STATUS COMMAND: it ends with STATUS where rt is this command and there is no cargo
demo_with() {
    printf '#!/bin/sh\n%s\n' "$2" >"$clone/bin/rt"
    chmod +x "$clone/bin/rt"
    last="demo with $2"
    got=0
    PATH=$clone/bin:/usr/bin:/bin "$clone/demo" >"$log" 2>&1 || got=$?
    ends "$1"
}

if PATH=/usr/bin:/bin command -v cargo >/dev/null; then
    echo "tool: cargo is among the system's programs, so ./demo was not tried without it"
else
    # `rt run` says of each crate that it has gone through it, and then prints what the program prints
    demo_with 0 '[ "$1" = run ] || exit 9; echo "crate laws: modules loaded=9 checked=3" >&2; echo flat'
    says "There is no cargo here"
    says "  laws"
    says "flat"
    says "It is good that"
    demo_with 1 '[ "$1" = run ] || exit 9; echo "fn f: not proved" >&2; exit 1'
    says "fn f: not proved"
    echo "tool: ./demo says what is good where there is no cargo, and what is not proved"
fi
