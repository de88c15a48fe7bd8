#!/bin/sh
# What the gate cannot run: the programs as processes, against the independent model. Ends with 'N passed, M failed'.
cd "$(dirname "$0")/.." || exit 1
for name in ${*:-best box}; do
    ./run "$name" --help >/dev/null || { echo "0 passed, 1 failed"; exit 1; }
done
exec python3 tests/programs.py "$@"
