#!/bin/sh
# Does ./chord start the proved program where it is fresh, else the sources through the toolchain's runner, and does ./build say how it ended?
# A stand-in for the toolchain takes the place of rt, so that this costs nothing.
set -u
root=$(cd "$(dirname "$0")/.." && pwd)
work=$(mktemp -d)
trap 'rm -rf "$work"' EXIT
failed=0

mkdir -p "$work/top/crates/chord_prog/src" "$work/top/examples" "$work/bin"
cp "$root/chord" "$root/build" "$work/top/"
echo 'a source' > "$work/top/examples/buffer.cs"
echo 'chord_prog:' > "$work/top/crates.txt"
echo '// the program' > "$work/top/crates/chord_prog/src/main.rt"

# rt try: tells its words and its input, and ends with the status in the file `ends`. rt run: makes a program that does so, or fails.
cat > "$work/bin/rt" <<'RT'
#!/bin/sh
ends=$(cat "$STAND_IN/ends")
case "$1" in
    try) shift 2
        echo "tried with $*: $(cat)"
        if [ "$ends" = never ]; then echo "run=hung" >&2; exit 1; fi
        echo "run=ended status=$ends runners=1 proved=no" >&2
        exit "$ends" ;;
    run) [ "$ends" = never ] && { echo "an open goal"; exit 1; }
        echo "so far: 1 of 2 functions checked"
        mkdir -p out
        printf '#!/bin/sh\necho "built with $*: $(cat)"\nexit %s\n' "$ends" > out/chord_prog
        chmod +x out/chord_prog ;;
esac
RT
chmod +x "$work/bin/rt"
export STAND_IN="$work"
PATH="$work/bin:$PATH"

# name, wanted status and wanted output of a call whose standard input is the word `input`
expect() {
    name=$1 status=$2 written=$3
    shift 3
    out=$(echo input | "$work/top/$@" 2>"$work/said")
    ended=$?
    if [ "$ended" -ne "$status" ] || [ "$out" != "$written" ]; then
        echo "launcher: $name: status $ended and \`$out\`, not status $status and \`$written\`" >&2
        failed=1
    fi
}
said() {
    grep -qF -- "$1" "$work/said" || { echo "launcher: standard error does not say \`$1\`" >&2; failed=1; }
}

echo 4 > "$work/ends"
expect 'not built' 4 'tried with run --one: input' chord run --one
said './build'
echo never > "$work/ends"
expect 'no end' 70 'tried with run: input' chord run
expect 'a build that fails' 70 '' build
said 'an open goal'
echo 6 > "$work/ends"
expect 'a build' 0 '' build
said '1 of 2 functions'
expect 'built and fresh' 6 'built with run --one: input' chord run --one
[ -s "$work/said" ] && { echo "launcher: a built program is started with words of its own" >&2; failed=1; }
# status 2: the program has written nothing, and the launcher says which word it was
echo 2 > "$work/ends"
refused() {
    wanted=$1
    shift
    echo input | "$work/top/chord" "$@" >"$work/written" 2>"$work/said"
    ended=$?
    [ "$ended" -eq 2 ] || { echo "launcher: $*: status $ended, not 2" >&2; failed=1; }
    said "chord: $wanted; ./chord help says what there is"
}
mkdir -p "$work/top/crates/chord_prog/out"
printf '#!/bin/sh\nexit 2\n' > "$work/top/crates/chord_prog/out/chord_prog"
refused 'no mode is given'
refused 'no mode is given' --one
refused 'there is no mode `walk`' walk
refused '`run` takes no number, and not `3`' run 3
refused 'some word is no text' run
refused '`load` wants a number from 1 to 60, not `61`' load 61 --one
refused '`load` wants a number from 1 to 60, not ``' load --one
refused '`5` is one word too many' load 4 5 --one
refused 'there is no option `--evens`' run --one --evens
refused '`--one` is given twice' run --one --one
refused '`--events` is given twice' run --events 16 --one --events=16
refused '`--workers` wants a number from 1 to 64 in at most seven digits, not `0`' run --workers 0
refused '`--events` wants a number from 16 to 65536 in at most seven digits, not `00000016`' run --one --events=00000016
refused '`--turns` wants a number from 1 to 1000000 in at most seven digits, not ``' run --one --turns
refused '`run` takes no number, and not `--one`' run -- --one
refused '`run` takes no number, and not ``' run --one ''
refused 'there is no mode ``' ''
refused 'there is no mode ``' '' run
refused '`5` is one word too many' load '' 5
for word in run rules code load --one --journal --workers --events --turns; do
    echo input | "$work/top/chord" help 2>"$work/said" | grep -q -- "^  $word " || { echo "launcher: help does not name $word" >&2; failed=1; }
done
[ "$("$work/top/chord" help | wc -l)" -le 26 ] || { echo 'launcher: help is longer than a screen' >&2; failed=1; }
# what cannot be written is said by the status, and a rule that is not there by another; a link starts what its file lies beside
mkdir -p "$work/top/docs"
printf '## Rules\n\n### C01 A rule\n\nIt says so.\n\n### C02 Another\n' > "$work/top/docs/LANGUAGE.md"
[ "$("$work/top/chord" explain C01)" = "$(printf '### C01 A rule\n\nIt says so.')" ] || { echo 'launcher: a rule is told otherwise' >&2; failed=1; }
"$work/top/chord" explain C99 2>"$work/said"
[ $? -eq 70 ] || { echo 'launcher: a rule that is not there is found' >&2; failed=1; }
said 'there is no rule `C99`'
if [ -w /dev/full ]; then
    for word in help 'explain C01'; do
        # shellcheck disable=SC2086
        "$work/top/chord" $word >/dev/full 2>/dev/null
        [ $? -eq 5 ] || { echo "launcher: $word does not say that it was not written" >&2; failed=1; }
    done
fi
ln -s "$work/top/chord" "$work/link"
echo input | "$work/link" run >/dev/null 2>"$work/said"
[ $? -eq 2 ] || { echo 'launcher: a link does not start the program' >&2; failed=1; }
# the program is started with large pages, unless the environment says how memory is asked for
printf '#!/bin/sh\necho "$GLIBC_TUNABLES"\n' > "$work/top/crates/chord_prog/out/chord_prog"
"$work/top/chord" run </dev/null | grep -q 'glibc\.malloc\.hugetlb=1' || { echo "launcher: large pages are not asked for" >&2; failed=1; }
[ "$(GLIBC_TUNABLES=own "$work/top/chord" run </dev/null)" = own ] || { echo "launcher: the environment's word on memory is lost" >&2; failed=1; }
# whoever ends the launcher ends the program
printf '#!/bin/sh\necho $$ > "$STAND_IN/id"\nexec sleep 60\n' > "$work/top/crates/chord_prog/out/chord_prog"
for signal in HUP INT TERM; do
    rm -f "$work/id"
    # an interrupt is ignored by what a script starts in the background, and by what that starts
    python3 -c 'import os, signal, sys; signal.signal(signal.SIGINT, signal.SIG_DFL); os.execv(sys.argv[1], sys.argv[1:])' "$work/top/chord" run </dev/null 2>/dev/null &
    launched=$!
    tries=0
    while [ ! -s "$work/id" ] && [ "$tries" -lt 1500 ]; do sleep 0.02; tries=$((tries + 1)); done
    [ -s "$work/id" ] || { echo "launcher: the program was not started within half a minute" >&2; kill -s KILL "$launched"; failed=1; continue; }
    kill -s "$signal" "$launched"
    wait "$launched"
    [ $? -eq 143 ] || { echo "launcher: $signal does not end it" >&2; failed=1; }
    kill -0 "$(cat "$work/id")" 2>/dev/null && { echo "launcher: $signal leaves the program running" >&2; failed=1; }
done
touch -d '+1 minute' "$work/top/crates/chord_prog/src/main.rt"
echo 6 > "$work/ends"
expect 'older than the sources' 6 'tried with rules: input' chord rules
exit $failed
