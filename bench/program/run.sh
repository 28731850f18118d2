#!/usr/bin/env bash
# Runs the built program for each exit code of docs/FORMATS.md, and compares the code and the bytes of standard output
# and standard error. It ends with 1 where one differs.
top=$(cd "$(dirname "${BASH_SOURCE[0]}")/../.." && pwd) || exit 1
program="$top/crates/osposg_cli/out/osposg_cli"
games="$top/games"
folder=$(mktemp -d) || exit 1
trap 'rm -rf "$folder"' EXIT
differences=0

# Compares the code of a run, and what it wrote, with what is wanted: NAME CODE WANTED-CODE WANTED-TEXT.
compare() {
    local name=$1 code=$2 wanted=$3
    printf '%s' "$4" >"$folder/wanted"
    if [ "$code" != "$wanted" ] || [ -s "$folder/err" ] || ! cmp -s "$folder/wanted" "$folder/out"; then
        echo "differs: $name: code $code, wanted $wanted; wrote:"
        cat "$folder/out" "$folder/err"
        differences=$((differences + 1))
    else
        echo "as wanted: $name: code $code"
    fi
}

# Runs the program on standard input: NAME WANTED-CODE WANTED-TEXT WORD..
expect() {
    local name=$1 wanted=$2 text=$3
    shift 3
    "$program" "$@" >"$folder/out" 2>"$folder/err"
    compare "$name" $? "$wanted" "$text"
}

guess() {
    cat "$games/guess-the-state.game"
    sed "$1" "$games/guess-the-state.cert"
}

"$top/osposg" floor <"$games/patrol.game" >/dev/null || exit 1
bound=$'action 1\nlower -1179657/65536\ntail 3932160/65536\n'
yes=$'yes\nlower 65536/131072 0.500000\nupper 65536/131072 0.500000\ntail 65536/65536 1.000000\n'
expect 'a bound' 0 "$bound" floor <"$games/patrol.game"
expect 'a yes' 0 "$yes" check < <(guess '')
expect 'a certificate whose gap is closed' 0 "$(cat "$games/matching-pennies.cert")"$'\n' solve <"$games/matching-pennies.game"
expect 'both spellings of options' 0 "$(cat "$games/matching-pennies.cert")"$'\n' solve --gap=01/0100 --trials 7 \
    <"$games/matching-pennies.game"
expect 'a certificate whose gap is open' 2 "$(cat "$games/patrol.cert")"$'\n' solve <"$games/patrol.game"
expect 'a place that fails' 1 $'no split 2 action 0 seen 0 state 0\n' check \
    < <(guess '/^point 2/,$s/^split 0 0 0 65536/split 0 0 0 65535/')
expect 'a refused game' 3 $'game refused: line 1 kind 9\n' floor </dev/null
expect 'a refused certificate' 4 $'certificate refused: line 1 kind 10\n' check <"$games/patrol.game"
# A directory can't be read, so nothing of it is read where the words are refused.
expect 'no words' 5 $'words refused\n' </
expect 'unknown words' 5 $'words refused\n' solve -- </
expect 'a trial too many' 5 $'words refused\n' solve --trials 10001 </
expect 'a word too many' 5 $'words refused\n' floor floor </
expect 'unreadable input' 6 '' floor </
"$program" floor <"$games/patrol.game" 2>"$folder/err" >/dev/full
code=$?
: >"$folder/out"
compare 'unwritable output' $code 7 ''
cc -O2 -shared -fPIC -o "$folder/refuse.so" "$top/bench/memory/refuse.c" || exit 1
LD_PRELOAD="$folder/refuse.so" REFUSE=1 REFUSE_LATER=1 "$program" floor <"$games/patrol.game" \
    >"$folder/out" 2>"$folder/err"
compare 'no memory' $? 8 ''
expect 'an input that is too long' 9 '' floor < <(head -c $(((1 << 26) + 1)) /dev/zero)
expect 'words that are no text' 11 '' floor $'\xff' </
exit $((differences > 0))
