#!/usr/bin/env bash
# The program from the shell: each example against what stands beside it, the statuses of faults, and the launcher.
# An example NAME.trace is given to `check`, an example NAME.program to `run`; NAME.out is what it writes, and NAME.status
# its status where that is not 0.
cd "$(dirname "$0")/.." || exit 2
passed=0
failed=0

# same NAME WANTED CAME: whether the two texts agree
same() {
    if [ "$2" == "$3" ]; then
        passed=$((passed + 1))
    else
        failed=$((failed + 1))
        printf 'failed: %s\n wanted: %s\n came:   %s\n' "$1" "$2" "$3"
    fi
}

work=$(mktemp -d)
trap 'rm -rf "$work"' EXIT
./goldi check </dev/null >/dev/null || exit 2

for example in examples/*.trace examples/*.program; do
    name=${example%.*}
    case $example in
    *.trace) ./goldi check <"$example" >"$work/out" ;;
    *) ./goldi run <"$example" >"$work/out" ;;
    esac
    status=$?
    wanted=0
    [ -f "$name.status" ] && wanted=$(cat "$name.status")
    same "$name: status" "$wanted" "$status"
    if cmp -s "$name.out" "$work/out"; then
        passed=$((passed + 1))
    else
        failed=$((failed + 1))
        diff "$name.out" "$work/out" | sed "s|^|failed: $name: |"
    fi
    # The same with lines that end as on other systems, and with nothing behind the last one.
    case $example in
    *.trace)
        same "$name with carriage returns" "$(cat "$name.out")" "$(sed -z 's/\n/\r\n/g' "$example" | ./goldi check)"
        same "$name without its last line end" "$(cat "$name.out")" "$(printf %s "$(cat "$example")" | ./goldi check)"
        ;;
    esac
done

# An input that cannot be read, an output that is lost, and words of no command.
./goldi check </ >"$work/out"
same "a folder as input: status" 2 $?
same "a folder as input: output" "" "$(cat "$work/out")"
./goldi run </ >"$work/out"
same "a folder as the program: status" 2 $?
same "a folder as the program: output" "" "$(cat "$work/out")"
./goldi check <&- >"$work/out"
same "no input: status" 2 $?
./goldi check <examples/ordered_fork.trace >/dev/full
same "a full device: status" 3 $?
./goldi run <examples/exceptions.program >/dev/full
same "a run to a full device: status" 3 $?
./goldi >/dev/full
same "usage to a full device: status" 3 $?
./goldi check <examples/ordered_fork.trace >&-
same "no output: status" 3 $?
{ sleep 1; ./goldi check <examples/ordered_fork.trace; echo $? >"$work/status"; } | true
same "a reader that has gone: status" 3 "$(cat "$work/status")"
./goldi check <examples/ordered_fork.trace | head -n 1 >"$work/out"
same "the first line alone" "1 ok" "$(cat "$work/out")"
for words in "" "chek" "check more" "--help" "run --steps" "run --steps=" "run --steps 1000001" "run --steps 00000001" \
    "run --steps +1" "run --steps 1 --steps=1" "run --workers 0" "run --workers 17" "run --segments=1" "run --cells 65" \
    "run --workers 2 --cells" $'\xff'; do
    # shellcheck disable=SC2086
    ./goldi $words </dev/null >"$work/out"
    same "words '$words': status" 1 $?
    same "words '$words': output" "usage: goldi check|list|run|load|audit" "$(cat "$work/out")"
done

# Two threads that add to one field with nothing between them: which access is raised depends on how their steps fall, but one or two are.
cat >"$work/unguarded" <<'PROGRAM'
class C 1 0
func main 0 3
  new C
  store 0
  load 0
  fork w
  store 1
  load 0
  fork w
  store 2
  load 1
  join
  load 2
  join
  halt
func w 1 1
from:
  load 0
  load 0
  get 0
  push 1
  add
  put 0
to:
  push 0
  ret
raised:
  print
  push 0
  ret
  catch from to raised
PROGRAM
for words in "run --workers 1" "run" "run --workers 16"; do
    # shellcheck disable=SC2086
    ./goldi $words <"$work/unguarded" >"$work/out"
    same "unguarded, $words: status" 6 $?
    same "unguarded, $words: exceptions are races" "" "$(grep '^out' "$work/out" | grep -v '^out 1$')"
    same "unguarded, $words: as many as are told" "races $(grep -c '^race [12] 0 ' "$work/out")" "$(tail -n 1 "$work/out")"
    same "unguarded, $words: ends" 3 "$(grep -c '^end [012] halt$' "$work/out")"
done

# The record of a run is lawful, however the threads' steps fell.
for program in "$work/unguarded" examples/*.program; do
    ./goldi run --journal <"$program" | sed -n '/^record /,$p' >"$work/record"
    cat "$program" "$work/record" | ./goldi audit >"$work/out"
    same "the audit of a run of $(basename "$program"): status" 0 $?
    same "the audit of a run of $(basename "$program"): output" "lawful" "$(cat "$work/out")"
done

# A text without an end, one that comes in two parts, and each front of a program.
yes "0 rd 1" | ./goldi check >"$work/out"
same "a text without an end: status" 4 "${PIPESTATUS[1]}"
same "a text without an end: output" "refused 0 1" "$(cat "$work/out")"
same "a text in two parts" "1 ok 2 ok races 0" "$({ echo "0 wr 1"; sleep 0.2; echo "0 rd 1"; } | ./goldi check | tr '\n' ' ' | sed 's/ $//')"
program=examples/exceptions.program
wrong=$(for ((n = 0; n < $(wc -c <$program); n++)); do
    head -c "$n" $program | crates/goldi/out/goldi list >"$work/out"
    status=${PIPESTATUS[1]}
    [ "$status" = 0 ] || [ "$status" = 4 ] || echo "$n: $status"
done)
same "each front of a program" "" "$wrong"
# From another folder, through a pipe.
(cd "$work" && printf '0 fork 1\n0 wr 1\n1 rd 1\n' | "$OLDPWD/goldi" check >out)
same "from another folder: status" 6 $?
ln -s "$PWD/goldi" "$work/link"
"$work/link" check <examples/ordered_fork.trace >"$work/out"
same "through a link: status" 0 $?

echo "$passed passed, $failed failed"
[ "$failed" -eq 0 ]
