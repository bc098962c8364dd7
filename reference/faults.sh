#!/bin/sh
# Plants each fault in turn in the `stream` program and shows which model betrays it, then likewise
# in the `or-stream` program, with lists of pairs. Ends with a failure if one stays hidden.
# Usage: ./faults.sh [SEED [COUNT]]
set -u
cd "$(dirname "$0")" || exit 2
cargo build --release --offline --quiet || exit 2
seed=${1:-1}
count=${2:-20000}
planted=0
hidden=0

# The faults of a program, found by a comparer.
plant() {
    names=$("target/release/$1" --faults | cut -d: -f1)
    for name in $names; do
        planted=$((planted + 1))
        found=$("target/release/$2" "target/release/$1" --seed "$seed" --count "$count" \
            -- --fault "$name" 2>/dev/null | grep -A1 '^difference' | grep -E '^(model|list):')
        if [ -n "$found" ]; then
            printf '%-24s found, %s\n' "$name" "$found"
        else
            printf '%-24s HIDDEN in %s cases\n' "$name" "$count"
            hidden=$((hidden + 1))
        fi
    done
}

plant stream compare
plant or-stream compare-or
echo "$planted faults planted, $hidden hidden"
[ "$planted" -gt 0 ] && [ "$hidden" -eq 0 ]
