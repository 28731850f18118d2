#!/usr/bin/env bash
# Runs ./osposg with standard error on a terminal and without one, and compares exit code and standard output with those
# of the program alone, and what the terminal shows with what is wanted: explain.sh [PROGRAM]. Without a PROGRAM it is the
# one that ./osposg builds. It ends with 1 where something differs.
top=$(cd "$(dirname "${BASH_SOURCE[0]}")/../.." && pwd) || exit 1
games="$top/games"
terminal="$top/bench/program/terminal.py"
folder=$(mktemp -d) || exit 1
trap 'rm -rf "$folder"' EXIT
differences=0

# A copy of the script in a tree of its own, whose program is the named one: its command rt only puts that in place.
plant() {
    local tree="$folder/$1" program=$2 cli="$folder/$1/crates/osposg_cli"
    mkdir -p "$tree/bin" "$tree/tools" "$cli/src" "$cli/specs" "$cli/proofs" "$cli/out"
    cp "$top/osposg" "$tree/osposg"
    cp "$top/tools/explain.py" "$tree/tools"
    : >"$tree/crates.txt"
    printf '#!/bin/sh\ncp "%s" out/osposg_cli\n' "$program" >"$tree/bin/rt"
    chmod +x "$tree/bin/rt"
    { PATH="$tree/bin:$PATH" "$tree/osposg" show <"$games/patrol.game" >"$folder/built" 2>&1; } 2>/dev/null
    [ -x "$cli/out/osposg_cli" ] || { cat "$folder/built"; exit 1; }
}

tell() {
    echo "differs: $1: $2"
    differences=$((differences + 1))
}

# Compares a run with the program's own: NAME CODE.
same() {
    [ "$2" = "$code" ] || tell "$1" "code $2, the program's is $code"
    cmp -s "$folder/wanted" "$folder/out" || tell "$1" "standard output is not the program's"
}

# Compares what the terminal shows, without its carriage returns: NAME TEXT, where no text is none at all and * any.
shows() {
    tr -d '\r' <"$folder/shown" >"$folder/plain"
    if [ "$2" = '*' ]; then
        return
    elif [ -n "$2" ]; then
        grep -qF -- "$2" "$folder/plain" || { tell "$1" "wanted on the terminal: $2"; cat "$folder/plain"; }
    elif [ -s "$folder/plain" ]; then
        tell "$1" 'something is on the terminal:'
        cat "$folder/plain"
    fi
}

# Runs one input: NAME TEXT WORD.., where TEXT is some of what the terminal is to show.
expect() {
    local name=$1 text=$2 before=$differences
    shift 2
    cat >"$folder/input"
    # The braces take what this shell says of a program that crashes.
    { "$folder/$tree/crates/osposg_cli/out/osposg_cli" "$@" <"$folder/input" >"$folder/wanted"; } 2>/dev/null
    code=$?
    { PATH="$folder/no-python:$PATH" "$folder/$tree/osposg" "$@" <"$folder/input" >"$folder/out" 2>"$folder/shown"; } 2>/dev/null
    same "$name, no terminal" $?
    shows "$name, no terminal" ''
    [ -e "$folder/no-python/ran" ] && tell "$name" 'Python runs without a terminal'
    "$terminal" "$folder/shown" "$folder/$tree/osposg" "$@" <"$folder/input" >"$folder/out"
    same "$name, from a file" $?
    shows "$name, from a file" "$text"
    cat "$folder/input" | "$terminal" "$folder/shown" "$folder/$tree/osposg" "$@" >"$folder/out"
    same "$name, from a pipe" "${PIPESTATUS[1]}"
    shows "$name, from a pipe" "$text"
    [ $differences -gt $before ] || echo "as wanted: $name: code $code"
}

# The game to guess the state, and its certificates, changed by sed.
game() {
    sed "$1" "$games/guess-the-state.game"
}

one_start() {
    cat "$games/guess-the-state.game"
    sed "$1" "$games/guess-the-state.cert"
}

two_starts() {
    cat "$games/guess-the-state.game"
    sed "$1" "$games/guess-two-starts.cert"
}

refused_games() {
    expect 'game kind 1' 'line 1 of the game: osposg 9' floor < <(game 's/^osposg 1/osposg 9/')
    expect 'game kind 2' 'is not what is due here: total D' show < <(game 's/^total 1/total 1 1/')
    expect 'game kind 3' 'line 5 of the game: first 1 x' solve < <(game 's/^first 1 1/first 1 x/')
    expect 'game kind 4' 'a number is outside its limit: 1 to 16 states' floor < <(game 's/^size 2/size 17/')
    expect 'game kind 5, a row' 'it is not the next row' floor < <(game 's/^step 0 1 0/step 1 0 0/')
    expect 'game kind 5, a weight' 'rise by observation' floor < <(game 's/^total 1/total 2/; s/^out 0 0 1/out 0 1 1\n&/')
    expect 'game kind 6, too much' 'sums to more than the row total' floor < <(game 's/^out 0 0 1/out 0 0 1\nout 0 1 1/')
    expect 'game kind 6, too little' 'sums to less than the row total' floor < <(game 's/^total 1/total 2/')
    expect 'game kind 7' 'line 5 of the game: first 0 0' floor < <(game 's/^first 1 1/first 0 0/')
    expect 'game kind 8' 'the reward is too large' floor \
        < <(game 's/^total 1/total 1073741824/; s/^discount 0 1/discount 0 1048576/; s/^step 0 0 0 1/step 0 0 0 1000000/')
    expect 'game kind 9, cut' 'line 14 of the game, which no line feed ends: en' floor < <(game '' | head -c -2)
    expect 'game kind 9, no text' 'line 1 of the game is not there: the input ends before it' floor </dev/null
    expect 'game kind 9, what is due' 'due here: out o t w, or the next row' floor < <(game '$d')
    expect 'game kind 10' 'line 15 of the game: certificate 1' floor < <(one_start '')
    expect 'a game in front' 'line 3 of the game: total 0' check < <(one_start '' | sed 's/^total 1/total 0/')
    expect 'comments in front' 'line 6 of the game: total 0 # none' show < <(game 's/^total 1/# one\n\n \t\ntotal 0 # none/')
}

# Lines that a terminal must not print as they are, and one that is too long.
odd_lines() {
    expect 'a control byte' 'line 3 of the game: to\x1b[2Jtal \xff é 1\t\r' floor < <(game $'s/^total 1/to\033[2Jtal \\xff é 1\t\r/')
    expect 'a long line' "line 3 of the game: $(printf '%0120d' 0) .." floor < <(game "s/^total 1/$(printf '%0400d' 0)/")
    expect 'a blank line' 'line 1 of the certificate (line 15 of the input): (empty)' check < <(game ''; echo; one_start '' | sed 1,14d)
    expect 'another blank at the end' 'line 37 of the certificate (line 51 of the input): (empty)' check < <(one_start ''; echo)
}

refused_certificates() {
    expect 'certificate kind 1' 'line 1 of the certificate (line 15 of the input): certificate 3' check \
        < <(one_start 's/^certificate 1/certificate 3/')
    expect 'certificate kind 2' 'with single spaces: gap A/B' check < <(one_start 's/^gap 1.100/gap  1\/100/')
    expect 'certificate kind 3' 'line 4 of the certificate (line 18 of the input): lower 1/02' check \
        < <(one_start 's/^lower .*/lower 1\/02/')
    expect 'certificate kind 4' 'outside its limit: each weight 0 to 65536' check < <(one_start 's/^mix 65536 0/mix 65537 0/')
    expect 'certificate kind 5, node' 'nodes are numbered 0, 1, 2' check < <(one_start 's/^node 0/node 1/')
    expect 'certificate kind 5, from' 'the from lines rise' check < <(two_starts 's/^from 1 1/from 0 1/')
    expect 'certificate kind 5, mix' 'of the states 0, 1, 2' simulate < <(one_start 's/^mix 1 65536/mix 2 65536/')
    expect 'certificate kind 6' 'how many' check < <(one_start 's/^start 0 2/start 1 2/')
    expect 'certificate kind 7, from' 'the start nodes sum to more than 65536' check < <(two_starts 's/^from 1 1/from 1 65536/')
    expect 'certificate kind 7, over' 'start nodes have a common divisor' check < <(two_starts 's/^from \(.\) 1/from \1 2/')
    expect 'certificate kind 7, node 0' 'start points have a common divisor' check < <(two_starts 's/^over \(.\) 1/over \1 2/')
    expect 'certificate kind 7, next' 'or an earlier pair lacks some' check < <(one_start 's/^next 0 0 0 65536/&\nnext 1 0 0 1/')
    expect 'certificate kind 7, a node' 'in the node before this line' check < <(one_start '/^next 0 0 0/d')
    expect 'certificate kind 7, belief' 'or have a common divisor' check < <(one_start 's/^belief 1 1/belief 2 2/')
    expect 'certificate kind 8' 'line 37 of the certificate (line 51 of the input): end' check < <(one_start '$s/.*/&\nend/')
    expect 'certificate kind 9' 'at most 1024 nodes' check < <(one_start 's/^sizes 1 3/sizes 1025 3/')
    expect 'certificate kind 10, none' 'nothing follows the game' check < <(game '')
    expect 'certificate kind 10, cut' 'which no line feed ends: split 1 0 1 6' check < <(one_start '' | head -c -9)
    expect 'certificate kind 10, due' 'due here: split a o k w, or the next point, or end' check < <(one_start '$d')
}

places() {
    expect 'no node' 'node 0 claims too much in state 1: if the informed player takes action 0' check \
        < <(one_start 's/^vector 65536 0/vector 65536 1/')
    expect 'where a node is' 'node 1 begins at line 17 of the certificate' check < <(two_starts 's/^vector 0 65536/vector 1 65536/')
    expect 'no corner' 'point 0 must have the belief 1 in state 0' check < <(one_start 's/^belief 1 0/belief 0 1/')
    expect 'no split' 'point 2: after own action 0 and observation 0 the split lines' check \
        < <(one_start '/^point 2/,$s/^split 0 0 0 65536/split 0 0 0 65535/')
    expect 'where a point is' 'point 2 begins at line 27 of the certificate' check \
        < <(one_start '/^point 2/,$s/^value 65536/value 65535/')
    expect 'no value' 'if the maximiser takes own action 0' check < <(one_start '/^point 2/,$s/^value 65536/value 65535/')
    expect 'no start' 'do not make up the game' check < <(one_start 's/^start 0 2/start 0 1/')
    expect 'no bound' 'lower, upper and tail (4 to 6 of the certificate)' check < <(one_start 's/^lower .*/lower 1\/2/')
    expect 'no outcome' 'at most the gap; it is 0.500000' check < <(two_starts 's/^outcome trials/outcome closed/')
    expect 'a yes' '' check < <(one_start '')
}

others() {
    expect 'a closed certificate' 'closed: upper less lower is 0.000000 in units of reward, within the tolerance of 1/100' solve \
        <"$games/matching-pennies.game"
    expect 'an open certificate' 'open: upper less lower is 0.652588 in units of reward, above the tolerance of 1/100' solve \
        <"$games/patrol.game"
    expect 'a gap in the words' 'in units of reward, within the tolerance of 1/1' solve --gap 1/1 <"$games/patrol.game"
    expect 'a bound' '' floor <"$games/patrol.game"
    expect 'a play' '' simulate < <(one_start '')
    expect 'a generated game' '' gen --number 1 --size 3 </dev/null
    expect 'no such words' 'the words are no command' solve --trials x <"$games/patrol.game"
    expect 'words that are no text' 'the words are not UTF-8' floor $'\xff' <"$games/patrol.game"
    expect 'an input that is too long' '*' floor < <(head -c $(((1 << 26) + 1)) /dev/zero)
}

# Runs whose input or output is not as usual: NAME TEXT CODE, after the run.
unusual() {
    local before=$differences
    code=$3
    : >"$folder/wanted"
    same "$1" "$4"
    shows "$1" "$2"
    [ $differences -gt $before ] || echo "as wanted: $1: code $code"
}

ends() {
    local given="$folder/$tree/osposg"
    "$terminal" "$folder/shown" bash -c '"$0" floor </' "$given" >"$folder/out"
    unusual 'unreadable input' '' 6 $?
    "$terminal" "$folder/shown" bash -c '"$0" floor <&-' "$given" >"$folder/out"
    code=$?
    bash -c '"$0" floor <&-' "$given" >"$folder/wanted" 2>/dev/null
    [ $code = $? ] && cmp -s "$folder/wanted" "$folder/out" || tell 'closed input' "code $code"
    "$terminal" "$folder/shown" "$given" </dev/null >"$folder/out"
    grep -qF 'usage: ./osposg' "$folder/shown" && ! grep -qF 'osposg: ' "$folder/shown" || tell 'no words' 'no usage alone'
    : >"$folder/out"
    "$terminal" "$folder/shown" "$given" solve <"$games/patrol.game" >/dev/full
    unusual 'unwritable output' 'standard output could not be written' 7 $?
    "$terminal" "$folder/shown" "$given" solve --trials x < <(echo left) >"$folder/out"
    echo 'words refused' | cmp -s - "$folder/out" || tell 'words refused' 'other bytes'
    { "$terminal" "$folder/shown" "$given" flor >/dev/null; cat; } < <(echo left) >"$folder/out"
    echo left | cmp -s - "$folder/out" || tell 'refused words' 'the input was touched'
    { "$terminal" "$folder/shown" "$given" floor >/dev/null; cat; } <<<'' >"$folder/out"
    cmp -s /dev/null "$folder/out" || tell 'a refused file' 'it is not left at its end'
    one_start '' >"$folder/input"
    "$terminal" "$folder/shown" env PATH="$folder/no-python:$PATH" "$given" floor <"$folder/input" >"$folder/out"
    code=$?
    echo 'game refused: line 15 kind 10' | cmp -s - "$folder/out" && [ $code = 3 ] || tell 'no Python' 'another answer'
    shows 'no Python' ''
    rm -f "$folder/no-python/ran"
}

# A stand-in that takes its time, and has bounds beyond what floating numbers hold.
cat >"$folder/stand-in" <<'STAND_IN'
#!/usr/bin/env bash
case $1 in
    solve) sleep 7; printf 'certificate 1\noutcome trials\ngap 1/3\nlower -9007199254740993/3\nupper 9007199254740993/7\n'; exit 2 ;;
    close) printf 'certificate 1\noutcome trials\ngap 1/3\nlower 1/1000000000\nupper 2/3\n'; exit 2 ;;
    check) exec sleep 60 ;;
    show) kill -SEGV $$ ;;
    floor) exit 9 ;;
esac
STAND_IN
chmod +x "$folder/stand-in"

slow_runs() {
    expect 'great fractions' 'open: upper less lower is 4289142502257615.714286 in units of reward' solve </dev/null
    grep -qF $'osposg: solve has been running for 3 s\r' "$folder/shown" || tell 'a long run' 'no note'
    grep -qF "6 s"$'\r'"$(printf '%38s' '')"$'\r'osposg:\ open "$folder/shown" || tell 'a long run' 'the note is not erased'
    expect 'a rounded gap' 'upper less lower is 0.666667 in units of reward, above the tolerance of 1/3; close of what' close </dev/null
    expect 'a crash' '' show </dev/null
    expect 'an input that is said to be too long' 'the input has more than 2^26 bytes' floor </dev/null
}

# Ends a run by a signal, and looks whether its program has ended too: SIGNAL.
signalled() {
    local pid left tries=0
    rm -f "$folder/PID" "$folder/shown"
    "$terminal" "$folder/shown" "$folder/$tree/osposg" check </dev/null >"$folder/out" &
    until [ -s "$folder/PID" ] && grep -qs has "$folder/shown"; do sleep 0.2; [ $((tries += 1)) -lt 100 ] || break; done
    pid=$(cat "$folder/PID")
    left=$(pgrep -P "$pid")
    kill "-$1" "$pid"
    wait $!
    code=$?
    [ $code = $((128 + $(kill -l "$1"))) ] || tell "signal $1" "code $code"
    if [ -z "$left" ] || kill -0 $left 2>/dev/null; then tell "signal $1" 'the program was left'; fi
    echo "signal $1: code $code"
}

if [ $# -eq 0 ]; then
    "$top/osposg" floor <"$games/patrol.game" >/dev/null || exit 1
fi
mkdir "$folder/no-python"
printf '#!/bin/sh\n: >"%s"\nexit 1\n' "$folder/no-python/ran" >"$folder/no-python/python3"
chmod +x "$folder/no-python/python3"
plant whole "$(realpath "${1:-$top/crates/osposg_cli/out/osposg_cli}")"
plant slow "$folder/stand-in"
tree=whole
refused_games
odd_lines
refused_certificates
places
others
ends
tree=slow
slow_runs
signalled TERM
signalled HUP
echo "$differences differences"
exit $((differences > 0))
