#!/usr/bin/env bash
# Runs the scripts and commands of the documents and compares what comes with what they print: docs/check.sh [all]. Its status is 0 where all is as told.
set -u
top=$(cd "$(dirname "${BASH_SOURCE[0]}")/.." && pwd) || exit 2
cd "$top" || exit 2
exec python3 docs/check.py "$@"
