#!/bin/sh
# Two offices that work offline, one conflict, one merge. This runs each command of a table of tests/lines in a new folder, and prints
# its output. To run another table: sh examples/two_offices.sh three_offices.txt
root=$(cd "$(dirname "$0")/.." && pwd)
folder=$(mktemp -d) && cp "$root"/examples/*.wkt "$folder" && cd "$folder" || exit 1

crsreg() {
    "$root/crsreg" "$@"
}

while IFS= read -r line; do
    case $line in
    '' | '# '*) printf '%s\n' "$line" ;;
    '$ '*)
        printf '%s\n' "$line"
        eval "${line#??}" </dev/null
        ;;
    esac
done <"$root/tests/lines/${1:-two_offices.txt}"
rm -r "$folder"
