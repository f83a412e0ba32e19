#!/usr/bin/env bash
# That the documents do not drift from the code: the picture of the crates is that of crates.txt, no claim has more to believe than
# is said, each file that they name is there, in docs/claims.md the files on the way from the top call to the definitions have the
# names from which it goes on and each call is a function of the code, and README's example is the one of examples/.
cd "$(dirname "$0")/.." || exit 2
passed=0
failed=0

check() {
    if [ "$2" = 0 ]; then
        passed=$((passed + 1))
    else
        failed=$((failed + 1))
        echo "failed: $1"
    fi
}

python3 docs/crates.py --check
check "the picture of the crates" $?

python3 docs/believed.py --check
check "what a reader has to believe has grown" $?

missing=$(grep -Eoh 'crates/[a-z_]*/[A-Za-z_/.]*[A-Za-z]|(docs|bench|checks|examples)/[A-Za-z_]*\.[a-z]*' README.md docs/*.md bench/README.md |
    sort -u | while read -r file; do
    [ -e "$file" ] || echo "$file"
done)
[ -z "$missing" ]
check "named in the documents, and not there: $missing" $?

steps=$(sed -n 's/^| \(crates[^ ]*\) | \([^|]*\) |.*/\1 \2/p' docs/claims.md)
lost=$(while read -r file names; do
    # shellcheck disable=SC2016
    for name in $(grep -o '`[A-Za-z_]*`' <<<"$names" | tr -d '`'); do
        grep -qw "$name" "$file" || echo "$name in $file"
    done
done <<<"$steps")
[ -n "$steps" ] && [ -z "$lost" ]
check "the way from the top call to the definitions: $lost" $?

# The first cell of each row of the tables headed "Call": `crate::Type::call`, or a type.
# shellcheck disable=SC2016
calls=$(sed -n '/^| Call |/,/^$/s/^| \(`[^|]*\) |.*/\1/p' docs/claims.md | grep -o '`[^`]*`' | tr -d '`' | sed 's/.*:://' | sort -u)
lost=$(for call in $calls; do
    grep -Eqr --include='*.rt' "(fn|struct) $call\b" crates/*/src || [ -d "crates/$call" ] || echo "$call"
done)
[ -n "$calls" ] && [ -z "$lost" ]
check "no such call: $lost" $?

[ "$(sed -n '/^## An example/,/^## The/s/^    //p' README.md)" = "$(cat examples/unordered_fork.{trace,out})" ]
check "README's example" $?

echo "$passed passed, $failed failed"
[ "$failed" = 0 ]
