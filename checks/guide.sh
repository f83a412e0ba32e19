#!/usr/bin/env bash
# That the user's guide and the page on Goldilocks say what the program does: docs/guide.py runs the texts and sessions that they show.
cd "$(dirname "$0")/.." || exit 2
./goldi check </dev/null >/dev/null || exit 2
exec python3 docs/guide.py
