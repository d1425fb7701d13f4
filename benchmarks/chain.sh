#!/usr/bin/env bash
# Times the edits and the statuses of a derivation of 500 sequences and 501 assignments, 1,001 nodes. Run it at the top of the
# repository; the numbers are in docs/PERFORMANCE.md.
set -euo pipefail
cd "$(dirname "$0")/.."
. benchmarks/seconds.sh
statuses=${1:-20}

# The place of a node: 1 is the root's, and its kids' are twice as much and one more.
script() {
    awk -v statuses="$1" '
        function place(node) { return node == 1 ? "main" : place(int(node / 2)) "/" (1 + node % 2) }
        BEGIN {
            print "var x : int"
            print "root x:[true, true]"
            for (node = 1; node <= 500; node++) print "step " place(node) " seq true"
            for (node = 501; node <= 1001; node++) {
                print "step " place(node) " assign x := x + 1"
                print "prove " place(node) " 1 trueR"
                print "prove " place(node) " 2 trueR"
            }
            for (i = 0; i < statuses; i++) print "status"
        }'
}

script 0 > /tmp/edits.script
script "$statuses" > /tmp/statuses.script
edits=$(seconds /tmp/edits.script)
all=$(seconds /tmp/statuses.script)
awk -v edits="$edits" -v all="$all" -v n="$statuses" \
    'BEGIN { printf "%.3f milliseconds an edit (2,005 edits), %.3f milliseconds a status\n", edits / 2005 * 1e3, (all - edits) / n * 1e3 }'
