#!/usr/bin/env bash
# That what crates/gl_compare has to print is what checks/compared.py works out apart from it, by vector clocks.
cd "$(dirname "$0")/.." || exit 2
if difference=$(diff <(python3 checks/compared.py) crates/gl_compare/stdout); then
    echo "1 passed, 0 failed"
else
    echo "failed: the counts of the comparison"
    echo "$difference"
    echo "0 passed, 1 failed"
    exit 1
fi
