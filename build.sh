#!/bin/sh
# Proves and builds the program, with every library of the repository that it uses, and leaves it in bin/aec. Prints
# one line a crate. What the checker says goes into a log, which is named where a crate fails. Run from the top of the
# repository by `make`.
set -u
log=bin/build.log
mkdir -p bin
: > "$log"

if ! command -v rt > /dev/null; then
    echo "no command 'rt': the Rattle kit's folder bin has to be on the path" >&2
    exit 1
fi

# The crates that `aec` uses, and `aec` itself, lowest first.
crates() {
    awk '
        /^[a-z]/ {
            name = $1; sub(/:$/, "", name); is_crate[name] = 1; uses[name] = " "
            for (i = 2; i <= NF; i++) uses[name] = uses[name] $i " "
        }
        function visit(name,   words, count, i) {
            if (!(name in is_crate) || name in seen) return
            seen[name] = 1
            count = split(uses[name], words, " ")
            for (i = 1; i <= count; i++) visit(words[i])
            print name
        }
        END { visit("aec") }
    ' crates.txt
}

all=$(crates)
total=$(echo "$all" | wc -l)
number=0
for crate in $all; do
    number=$((number + 1))
    echo "proving $crate ($number of $total)"
    step="lib"
    [ -f "crates/$crate/src/main.rt" ] && step="run -- --help"
    if ! (cd "crates/$crate" && rt $step) >> "$log" 2>&1; then
        echo "$crate isn't proved: $log has the checker's lines" >&2
        exit 1
    fi
done
cp crates/aec/out/aec bin/aec
