#!/usr/bin/env bash
# Makes the stored run of crates/rw_rows from the examples and the documents: examples/rows.sh. With --check it only tells whether that is in
# step with them.
# NAME.script gets the replies NAME.expected, and the status NAME.status where there is such a file; else 1 where a reply is a refusal, and 0.
# NAME.rows holds scripts behind their headings, and NAME.answers what is written for them. The documents' scripts docs/scripts.py gives.
set -u
export LC_ALL=C
here=$(cd "$(dirname "${BASH_SOURCE[0]}")" && pwd) || exit 2
stored=$here/../crates/rw_rows

# The files of a kind, without their ends.
names() {
    (cd "$here" && find . -name "*.$1" | sed "s|^\./||; s|\.$1\$||" | sort)
}

# A file, whose last line gets an LF where it lacks one.
whole() {
    cat "$1" || exit 2
    [ -z "$(tail -c 1 "$1")" ] || echo
}

status() {
    if [ -e "$1.status" ]; then cat "$1.status"; elif grep -q '^E' "$1.expected"; then echo 1; else echo 0; fi
}

scripts() {
    for name in $(names script); do
        echo "== $name"
        whole "$here/$name.script"
    done
    for name in $(names rows); do whole "$here/$name.rows"; done
    python3 "$here/../docs/scripts.py" rows
}

answers() {
    for name in $(names script); do
        echo "== $name"
        whole "$here/$name.expected"
        echo "-- status $(status "$here/$name")"
    done
    for name in $(names rows); do whole "$here/$name.answers"; done
    python3 "$here/../docs/scripts.py" answers
}

if [ "${1:-}" = --check ]; then
    made=$(mktemp -d) || exit 2
    trap 'rm -rf "$made"' EXIT
    scripts > "$made/stdin"
    answers > "$made/stdout"
    cmp -s "$made/stdin" "$stored/stdin" && cmp -s "$made/stdout" "$stored/stdout" && exit 0
    echo "crates/rw_rows/stdin or stdout is not in step with the examples and the documents: run examples/rows.sh" >&2
    exit 1
fi
scripts > "$stored/stdin"
answers > "$stored/stdout"
