#!/usr/bin/env bash
# A script over the calls of the shared table: its event calls, accesses, attempts and sweeps, with values that were worked out by hand.
# These tests are run, and not proved: their proofs did not end as one piece. The sources in checks/table become two crates beside copies of
# those whose calls they make, below a temporary folder. Each test counts; of a table whose close is refused memory four lines count:
# that it was refused no time in a first run and once in a second, and the record of each.
# The last line is 'N passed, M failed'.
set -u
cd "$(dirname "$0")/.." || exit 2
work=$(mktemp -d)
trap 'rm -rf "$work"' EXIT
passed=0
failed=0

# said NAME WANTED CAME: whether what came has the wanted line
said() {
    if grep -qxF "$2" <<<"$3"; then
        passed=$((passed + 1))
    else
        failed=$((failed + 1))
        printf 'failed: %s\n wanted the line: %s\n came:\n%s\n' "$1" "$2" "$3"
    fi
}

# Copies of gl_txn and of all crates below it, and the crates of the script, which use them.
echo "checks/table: these tests are run, and not proved"
below="gl_txn $(sed -n 's/^gl_txn[^:]*: //p' crates.txt)"
for crate in $below; do
    mkdir -p "$work/crates/$crate"
    cp -r "crates/$crate/src" "crates/$crate/specs" "crates/$crate/proofs" "$work/crates/$crate"
    grep -E "^$crate( .*)?:" crates.txt >>"$work/crates.txt"
done
cp HANDLES "$work"
mkdir -p "$work/crates/table_script/src" "$work/crates/table_refused/src"
echo "table_script tests_may=Threads: $below" >>"$work/crates.txt"
echo "table_refused: gl_events $(sed -n 's/^gl_events[^:]*: //p' crates.txt)" >>"$work/crates.txt"
for source in checks/table/*.rt.txt; do
    name=$(basename "$source" .rt.txt)
    case $name in
    refused) cp "$source" "$work/crates/table_refused/src/main.rt" ;;
    *) cp "$source" "$work/crates/table_script/src/$name.rt" ;;
    esac
done

# Each test counts: one that did not run has failed.
came=$(cd "$work/crates/table_script" && rt try --test --seconds 300 2>&1)
for name in $(sed -n '/^#\[test\]$/{n;s/^fn \([a-z0-9_]*\).*/\1/p}' checks/table/*.rt.txt); do
    if grep -qE "^test [a-z]*::$name \.\.\. ok$" <<<"$came"; then
        passed=$((passed + 1))
    else
        failed=$((failed + 1))
        echo "failed: the test $name"
        lost=1
    fi
done
[ -z "${lost-}" ] || echo "$came"

# The close of a table is refused memory, and made again. The first run tells which allocation is the close's own.
refuse() {
    cd "$work/crates/table_refused" && rt try --fail-alloc "$1" 2>&1
}
# record_in OUTPUT: the entries of the record that a run printed, as one line
record_in() {
    grep -E '^(sync|over|another|no) ' <<<"$1" | paste -sd ,
}
# Thread 0 begins at position 0, prints 7 at 1, ends at 2, and is over.
wanted="sync 0 Begin(0) 0,sync 1 Print 7,sync 2 End 0,over Halt"
came=$(refuse 5000)
said "a table that is closed at once" "refused closes: 0" "$came"
said "its record" "$wanted" "$(record_in "$came")"
behind=$(sed -n 's/^allocations behind it: //p' <<<"$came")
if [ -n "$behind" ]; then
    again=$(refuse $((4999 - behind)))
    said "a close that is refused" "refused closes: 1" "$again"
    said "its record" "$wanted" "$(record_in "$again")"
else
    failed=$((failed + 1))
    echo "failed: the number of the allocation of a close"
fi

echo "$passed passed, $failed failed"
[ "$passed" -gt 0 ] && [ "$failed" -eq 0 ]
