#!/usr/bin/env bash
# All tests: the gate `rt ci`, which proves every crate, tries the edits that must be refused, and runs the programs and
# the tests; then yardjudge on the stored histories and on random ones, compared with what the independent reference
# says. The last line is the gate's.
set -euo pipefail
cd "$(dirname "$0")/.."
log=$(mktemp)
trap 'rm -f "$log"' EXIT

# The gate; an edit that cannot be applied or read shows nothing of the contracts, so it fails the tests too.
rt ci 2>&1 | tee "$log" | sed -u '$d' || { tail -n 1 "$log"; exit 1; }
if grep -qE '^rt: ok.*, [1-9][0-9]* bad' "$log"; then
    echo "an edit that must be refused is bad"
    exit 1
fi

# The program as it is built, from the folder of each history.
(cd crates/yardjudge && rt run < /dev/null) > "$log.run" 2>&1 || { cat "$log.run"; exit 1; }
rm -f "$log.run"
program=$PWD/crates/yardjudge/out/yardjudge
for folder in tests/data/*/; do
    (cd "$folder" && "$program" < stdin | cmp - stdout)
    echo "stored history $folder: as expected"
done
tests/compare.sh "$program" 2000
tail -n 1 "$log"
