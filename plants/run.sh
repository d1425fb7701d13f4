#!/usr/bin/env bash
# Plants the bugs of plants/CRATE/*.edit, which the prover must refuse: plants/run.sh [CRATE ..], every crate that has some by default.
# Works on a copy of what is committed, outside the gate. Its status is 0 where each plant was refused.
set -u
top=$(cd "$(dirname "${BASH_SOURCE[0]}")/.." && pwd) || exit 2
[ $# -gt 0 ] || set -- $(cd "$top/plants" && ls -d -- */ | tr -d /)
copy=$(mktemp -d) || exit 2
trap 'rm -rf "$copy"' EXIT
git clone -q "$top" "$copy/top" || exit 2
for crate; do
    rm -rf "$copy/top/crates/$crate/must-fail"
    mkdir "$copy/top/crates/$crate/must-fail" && cp "$top/plants/$crate/"*.edit "$copy/top/crates/$crate/must-fail/" || exit 2
done
cd "$copy/top" && rt must-fail "$@"
