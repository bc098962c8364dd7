#!/bin/sh
# Turns each rounding of steps.rs, walk.rs, bounds.rs and orprob.rs the other way, one at a time, in
# a copy of the sources, and shows which model or list of pairs betrays it. With --marks each of the
# first three files' rounds as it should but tells that nothing was lost; those of orprob.rs have no
# mark that is printed. Takes some minutes.
# Usage: ./roundings.sh [--marks] [SEED [COUNT]]
set -u
cd "$(dirname "$0")" || exit 2
cargo build --release --offline --quiet || exit 2
how=turned
files="steps walk bounds orprob"
if [ "${1:-}" = --marks ]; then
    how=silent
    files="steps walk bounds"
    shift
fi
seed=${1:-1}
count=${2:-100000}
copy=$(mktemp -d) || exit 2
trap 'rm -rf "$copy"' EXIT
cp -r Cargo.toml src "$copy"
if [ "$how" = silent ]; then
    sed -i 's/kept: self.kept && kept/kept: (crate::faults::silent() || self.kept) \&\& kept/' \
        "$copy/src/marked.rs"
    cat >>"$copy/src/faults.rs" <<'END'
thread_local! {
    static SILENT: Cell<bool> = const { Cell::new(false) };
}

/// The operation that is handed this side tells of no loss.
pub fn silenced(side: crate::figure::Side) -> crate::figure::Side {
    SILENT.with(|cell| cell.set(true));
    side
}

pub fn silent() -> bool {
    SILENT.with(|cell| cell.replace(false))
}
END
fi

# Prints the file with the n-th rounding turned or silent, and the line that holds it on standard error.
turn() {
    awk -v wanted="$2" -v how="$how" '
        /^use|planted/ { print; next }
        {
            rest = $0; line = ""
            while (match(rest, /[ (](Up|Down)[,)]/)) {
                seen += 1
                word = substr(rest, RSTART + 1, RLENGTH - 2)
                if (seen == wanted) {
                    place = FNR ": " $0
                    if (how == "silent") word = "crate::faults::silenced(" word ")"
                    else word = word == "Up" ? "Down" : "Up"
                }
                line = line substr(rest, 1, RSTART) word
                rest = substr(rest, RSTART + RLENGTH - 1)
            }
            print line rest
        }
        END {
            if (place == "") exit 1
            gsub(/  +/, " ", place)
            print place > "/dev/stderr"
        }' "$1"
}

for file in $files; do
    comparer=compare
    program=stream
    if [ "$file" = orprob ]; then
        comparer=compare-or
        program=or-stream
    fi
    number=1
    while turn "src/$file.rs" "$number" >"$copy/src/$file.rs" 2>"$copy/place"; do
        place="$file.rs:$(cat "$copy/place")"
        (cd "$copy" && cargo build --release --offline --quiet --bin "$program" 2>/dev/null)
        found=$("target/release/$comparer" "$copy/target/release/$program" --seed "$seed" \
            --count "$count" | grep -E '^(model|list):' || echo "hidden in $count cases")
        printf '%s, rounding %s\n    %s\n' "$place" "$number" "$found"
        number=$((number + 1))
    done
    cp "src/$file.rs" "$copy/src/$file.rs"
done
