#!/bin/sh
# Are the grammar, its tables and the parser's first steps what tools/grammar.py makes of tools/grammar.txt?
set -eu
root=$(cd "$(dirname "$0")/.." && pwd)
made=$(mktemp -d)
trap 'rm -rf "$made"' EXIT
python3 "$root/tools/grammar.py" "$made"
cd "$made"
status=0
for file in $(find . -type f); do
    if ! cmp -s "$file" "$root/$file"; then
        echo "$file is not what tools/grammar.py makes" >&2
        status=1
    fi
done
exit $status
