#!/usr/bin/env bash
# The program explain from the shell: each example of examples/explain against what stands beside it, its explanation and for some a
# picture, bad input as `check` and `audit` refuse it, and the statuses.
cd "$(dirname "$0")/.." || exit 2
passed=0
failed=0

# same NAME WANTED CAME: whether the two texts agree
same() {
    if [ "$2" == "$3" ]; then
        passed=$((passed + 1))
    else
        failed=$((failed + 1))
        printf 'failed: %s\n wanted: %s\n came:   %s\n' "$1" "$2" "$3"
    fi
}

work=$(mktemp -d)
trap 'rm -rf "$work"' EXIT
./explain </dev/null >/dev/null || exit 2

for example in examples/explain/*.trace; do
    name=${example%.*}
    ./explain <"$example" >"$work/out"
    same "$name: status" 6 $?
    same "$name: output" "$(cat "$name.out")" "$(cat "$work/out")"
done

# Each run of examples/explain, a program with its record behind it, against what stands beside it.
for example in examples/explain/*.run; do
    name=${example%.*}
    ./explain --run <"$example" >"$work/out"
    same "$name: status" 6 $?
    same "$name: output" "$(cat "$name.out")" "$(cat "$work/out")"
done

# A run without a race, a record that is not lawful, bad input, and lost input and output.
halts=$'func main 0 0\n  halt\n'
halted=$'record 1 5\nthread 0\nsync 0 begin 0 0\nsync 1 end 0 0\nover halt\ndone\n'
printf '%s' "$halts$halted" | ./explain --run >"$work/out"
same "a run without a race: status" 0 $?
same "a run without a race: output" "races 0" "$(head -n 1 "$work/out")"
printf '%s' "$halts${halted/sync 1 end/sync 2 end}" | ./explain --run >"$work/out"
same "a record that is not lawful: status" 8 $?
same "a record that is not lawful: output" "not 0 1 2" "$(cat "$work/out")"
printf '%s' "$halts" | ./explain --run >"$work/out"
same "a program without a record: status" 4 $?
same "a program without a record: output" "refused 0 32" "$(cat "$work/out")"
./explain --run </ >/dev/null
same "a folder as a run: status" 2 $?
./explain --run <examples/explain/run_half_locked.run >/dev/full
same "a run to a full device: status" 3 $?
./explain --run --run </dev/null >/dev/null
same "a word too many: status" 1 $?

for picture in examples/explain/*.svg; do
    name=${picture%.*}
    ./explain --picture <"$name.trace" >"$work/out"
    same "$name: status of the picture" 6 $?
    same "$name: picture" "$(cat "$picture")" "$(cat "$work/out")"
done

# No race, bad input, and lost input and output.
same "no race: output" "races 0" "$(printf '0 fork 1\n0 wr 7\n' | ./explain | head -n 1)"
printf '0 fork 1\n0 wr 7\n' | ./explain >/dev/null
same "no race: status" 0 $?
printf '0 fork 1\n1 rel 0\n' | ./explain >"$work/out"
same "a monitor that is not owned: status" 4 $?
same "a monitor that is not owned: output" "refused 2 21" "$(cat "$work/out")"
printf '0 fork 1\n1 rel 0\n' | ./explain --picture >"$work/out"
same "a picture of it: status" 4 $?
same "a picture of it: output" "refused 2 21" "$(cat "$work/out")"
printf '0 fork 1\n0 wr 7\n' | ./explain --picture >"$work/out"
same "a picture without a race: status" 0 $?
same "a picture without a race: rows" "<text class='note' x='10' y='22'>races 0</text>" "$(grep races "$work/out")"
printf '# var 7 <a>&\n0 fork 1\n0 wr 7\n1 wr 7\n' | ./explain --picture >"$work/out"
same "a name with signs: a row" "<text dx='16' dy='4' x='380' y='164'>writes variable 7 (&lt;a&gt;&amp;)</text>" "$(tail -n 3 "$work/out" | head -n 1)"
./explain </ >/dev/null
same "a folder as input: status" 2 $?
./explain <examples/explain/two_locks.trace >/dev/full
same "a full device: status" 3 $?
same "a full device, a picture: status" 3 "$(./explain --picture <examples/explain/two_locks.trace >/dev/full; echo $?)"
usage="usage: explain [--picture] < TRACE, or explain --run < PROGRAM_AND_RECORD"
same "a word: output" "$usage" "$(./explain check </dev/null)"
./explain check </dev/null >/dev/null
same "a word: status" 1 $?
same "a word behind the picture: output" "$usage" "$(./explain --picture 1 </dev/null)"
same "a longer word: output" "$usage" "$(./explain --pictures </dev/null)"
./explain --picture 1 </dev/null >/dev/null
same "a word behind the picture: status" 1 $?

echo "$passed passed, $failed failed"
[ "$failed" -eq 0 ]
