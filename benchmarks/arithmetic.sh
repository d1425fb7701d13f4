#!/usr/bin/env bash
# Times the check of arithmetic lines: 4,096 lines in one certificate, short ones and ones that expand a product at the limit of 256
# products. Each status checks the whole certificate again. Run it at the top of the repository; the numbers are in docs/PERFORMANCE.md.
set -euo pipefail
cd "$(dirname "$0")/.."
. benchmarks/seconds.sh
statuses=${1:-20}
lines=4095

# $1: the root; $2: one arithmetic line; $3: how many statuses
script() {
    awk -v root="$1" -v line="$2" -v lines="$lines" -v statuses="$3" 'BEGIN {
        for (i = 1; i <= 16; i++) { print "var a" i "x : int"; print "var b" i "x : int" }
        print "root " root
        print "step main skip"
        printf "prove main 1 lin"
        for (i = 0; i < lines; i++) printf " [%s]", line
        print ""
        for (i = 0; i < statuses; i++) print "status"
    }'
}

measure() {
    local with without
    script "$2" "$3" "$statuses" > /tmp/with.script
    script "$2" "$3" 0 > /tmp/without.script
    with=$(seconds /tmp/with.script)
    without=$(seconds /tmp/without.script)
    awk -v name="$1" -v with="$with" -v without="$without" -v n=$((statuses * lines)) \
        'BEGIN { printf "%s: %.2f microseconds a line (%d lines in %.2f s)\n", name, (with - without) / n * 1e6, n, with - without }'
}

product() {
    awk 'BEGIN {
        for (i = 1; i <= 16; i++) { a = a (i > 1 ? " + " : "") "a" i "x"; b = b (i > 1 ? " + " : "") "b" i "x" }
        print "(" a ") * (" b ")"
    }'
}

measure "short lines" ":[a1x = 1, 0 = 1]" "1*L1"
measure "products of 256 summands" ":[$(product) = 1, 0 = 1]" "1*L1"
