#!/bin/sh
# Runs the main jobs on small files and shows each command with what came out: run.sh PATH_OF_AEC
set -eu
if [ $# != 1 ]; then
    echo "usage: run.sh PATH_OF_AEC" >&2
    exit 2
fi
if [ ! -x "$1" ]; then
    echo "run.sh: $1 is no program" >&2
    exit 1
fi
aec=$(realpath "$1")
here=$(cd "$(dirname "$0")" && pwd)
out=$(mktemp -d)
trap 'rm -rf "$out"' EXIT
cp "$here"/*.aec "$here"/*.raw "$out"
cd "$out"

# Prints the command as a user types it, and runs it.
run() {
    echo "aec $*"
    "$aec" "$@"
}

bytes() {
    od -An -tx1 "$1"
}

# Prints how many bytes of two files differ, place by place, and at which byte, counted from 0, the first such place is.
differing() {
    cmp -l "$1" "$2" 2> /dev/null | awk 'NR == 1 { first = $1 - 1 } END { print NR " bytes differ, the first at byte " first }'
}

# Fails unless a file has, from a byte on, what another file holds.
holds() {
    tail -c +$(($2 + 1)) "$1" | head -c "$(wc -c < "$3")" | cmp - "$3"
}

echo "Eight samples, written by hand as one uncompressed block and by sample splitting:"
run -d --count 8 -N eight_values.aec samples
bytes samples
run -d --count 8 ramp.aec samples
bytes samples
run --range 2:3 ramp.aec samples
bytes samples

echo
echo "4,090 measured samples of 16 bits, the last block not full:"
head -c 8180 durations.raw > measured.raw
run -n 16 -j 16 -r 128 measured.raw measured.aec
echo "  $(wc -c < measured.raw) bytes of samples are $(wc -c < measured.aec) bytes coded"
run -d --count 4090 -n 16 -j 16 -r 128 measured.aec back.raw
cmp measured.raw back.raw
echo "  the same $(wc -c < back.raw) bytes"
run -d -n 16 -j 16 -r 128 measured.aec back.raw
holds back.raw 0 measured.raw
echo "  $(wc -c < back.raw) bytes: without the count the filler of the last block comes too"
run --range 2500:4 --count 4090 -n 16 -j 16 -r 128 measured.aec part.raw
holds measured.raw 5000 part.raw
echo "  the samples 2500 to 2503:$(od -An -tu2 part.raw)"

echo
echo "The same stream, edited by a script of one line:"
echo "overwrite 2500 1 2 3 4" | tee script
run --edit script --count 4090 -n 16 -j 16 -r 128 measured.aec edited.aec
echo "  $(wc -c < measured.aec) bytes become $(wc -c < edited.aec), all before the first change as they were:"
echo "  $(differing measured.aec edited.aec)"
run -d --count 4090 -n 16 -j 16 -r 128 edited.aec back.raw
echo "  of the bytes of samples $(differing measured.raw back.raw)"
{ head -c 5000 measured.raw; printf '\1\0\2\0\3\0\4\0'; tail -c +5009 measured.raw; } | cmp - back.raw
echo "  the samples before and after these four are as they were"
run -n 16 -j 16 -r 128 back.raw anew.aec
cmp edited.aec anew.aec
echo "  coding the edited samples afresh gives the same stream"
