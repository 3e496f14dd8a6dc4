#!/usr/bin/env bash
# Makes the score file that a text says: ./make TEXT FILE. FILE is written only where the text is right; else the line and the reason are said, and the
# exit status is 1. The program is proved and built first, where that has not been done.
set -euo pipefail

if [ $# -ne 2 ]; then
    echo "usage: ./make TEXT FILE" >&2
    exit 2
fi
made=$(mktemp)
trap 'rm -f "$made"' EXIT
"$(dirname "${BASH_SOURCE[0]}")/tools/proved" make <"$1" >"$made"
# a score file has at least 48 bytes; where the text is wrong, nothing is written
[ -s "$made" ] || exit 1
cat "$made" >"$2"
