#!/usr/bin/env bash
# The acceptance rows: acceptance/NAME/{words,stdin,stdout,status} are what a person types, what the program reads,
# what it has to write, and the exit status it has to have. Long texts are written by a line of shell instead, in
# stdin.sh and stdout.sh. A row whose folder has a file `later` waits for a command that is not built yet.
# The last line is 'N passed, M failed'.
set -u
top=$(cd "$(dirname "$0")/.." >/dev/null && pwd)
passed=0
failed=0
work=$(mktemp -d)
trap 'rm -rf "$work"' EXIT

# made ROW NAME: the row's text of this name
made() {
  if [ -e "$1/$2.sh" ]; then bash "$1/$2.sh"; else cat "$1/$2"; fi
}

for row in "$top"/acceptance/*/; do
  row=${row%/}
  [ -e "$row/later" ] && continue
  mapfile -t words <"$row/words"
  made "$row" stdin >"$work/in"
  made "$row" stdout >"$work/wanted"
  "$top/goldi" ${words[@]+"${words[@]}"} <"$work/in" >"$work/out"
  status=$?
  if [ "$status" = "$(cat "$row/status")" ] && cmp -s "$work/out" "$work/wanted"; then
    passed=$((passed + 1))
  else
    failed=$((failed + 1))
    echo "acceptance/$(basename "$row"): status $status, wanted $(cat "$row/status"); wrote:"
    head -c 400 "$work/out"
  fi
done
echo "$passed passed, $failed failed"
[ "$failed" = 0 ]
