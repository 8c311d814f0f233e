#!/bin/sh
# Runs every test, from the top of the repository, for `make test`: the parts below, in their order. With the words `check PROGRAM
# [FOLDER]`, for `make check`, it runs only the parts that need no kit, on that program, and the tests of the library on FOLDER, which
# has libaecp.a and libaecp.so.
#
# A part that fails doesn't stop the others. The last line counts what passed and failed: it is the
# gate's line if all parts have passed, else that of the first part that failed, and the lines above
# say why it failed.
export PYTHONDONTWRITEBYTECODE=1
kept=$(mktemp -d)
trap 'rm -rf "$kept"' EXIT
begun=$(date +%s)
number=0

# A line for each part: its name, and its command. Before the gate: that each public function has a
# contract, a doc comment and a must-fail edit; that each definition in a public contract has a
# sentence; that generated pages are current; that files keep the limits of the house; that each
# must-fail edit can be applied; that each lemma is cited; that each copy of a large function has a
# number of its own; that the crates export what docs/SURFACE.md lists. After it: scripts that run
# the programs which the gate has built, but for `pictures`.
parts='contracts python3 checks/contracts.py --check
definitions python3 checks/definitions.py
modules python3 tools/modules.py --check
theorems python3 tools/theorem.py --check
man python3 tools/man.py --check
completions python3 tools/completions.py --check
limits python3 checks/limits.py
edits python3 checks/edits_apply.py
cited python3 checks/cited.py
copies python3 checks/copies.py
surface python3 checks/surface.py
gate gate
kept-program keep_gate
coded-samples on_program tests/coded.py
cut-streams on_program tests/cuts.py
damaged-streams on_program tests/damaged.py
refused-memory on_program tests/refused_memory.py
refused-calls on_program tests/refused_calls.py aec_memory_tests
failing-files on_program tests/failing_files.py
small-memory on_program tests/small_memory.py
libaec on_program tests/interop.py
scripts on_program tests/scripts.py
recipes on_program tests/recipes.py
installation on_program tests/installed.py
worked-pages on_program tests/worked_pages.py
pictures python3 bench/pictures.py --check
instructions on_program tests/instructions_bounded.py'

# The parts that need the kit, or programs and records that the gate leaves. `check` runs the other parts with a program: those without one
# check this repository.
with_kit='gate|kept-program|refused-calls|instructions'
of_library='library python3 tests/library.py PROGRAM FOLDER
module python3 tests/module.py --program PROGRAM FOLDER
archive python3 tests/archive.py FOLDER
preload python3 tests/preload.py FOLDER'
checked=
if [ "${1:-}" = check ]; then
    checked=$2
    if [ ! -x "$checked" ]; then
        echo "there is no program $checked: make check PROGRAM=/usr/bin/aec-proved" >&2
        exit 1
    fi
    parts=$(echo "$parts" | grep ' on_program ' | grep -vE "^($with_kit) ")
    if [ -n "${3:-}" ]; then
        parts=$(printf '%s\n%s' "$parts" "$of_library" | sed "s|PROGRAM FOLDER|$checked $3|; s| FOLDER\$| $3|")
    fi
fi

# Prints the minutes since this script began.
minutes() {
    echo $((($(date +%s) - begun) / 60))
}

# Runs a part, given its name and the words of its command. Shows its output, and keeps the output, the status and the time.
part() {
    name=$1
    shift
    number=$((number + 1))
    echo "== $name: part $number of $(echo "$parts" | wc -l), after $(minutes) min"
    since=$(date +%s)
    { "$@" < /dev/null 2>&1; echo $? > "$kept/$name.status"; } | tee "$kept/$name.log"
    has_passed "$name" && end= || end=", FAILED"
    echo "$name: $(($(date +%s) - since)) s$end" >> "$kept/times"
}

has_passed() {
    [ "$(cat "$kept/$1.status")" = 0 ]
}

# Runs a test on the program to be checked, else on one that the gate has built: the second argument, or `aec`.
on_program() {
    program=${checked:-crates/${2:-aec}/out/${2:-aec}}
    if [ -x "$program" ]; then
        python3 "$1" "$program"
    else
        echo "the gate has built no program $program"
        echo "0 passed, 1 failed"
        return 1
    fi
}

# Prints how many checks the gate may run at a time: one a processor, if each has 4.5 GB of the free memory and of the control group's
# limit, and RT_JOBS isn't set; else nothing. Without RT_JOBS `rt ci` plans with two to four times the memory that a check takes (at most 3 GB), and leaves
# one of four processors with 24 GB idle for a fifth of the time. With it `rt ci` doesn't look at memory.
jobs_of_gate() {
    free=$(awk '/MemAvailable/ {print $2}' /proc/meminfo)
    most=$(cat /sys/fs/cgroup/memory.max 2>/dev/null || echo max)
    if [ "$most" != max ] && [ $((most / 1024)) -lt "$free" ]; then
        free=$((most / 1024))
    fi
    if [ -z "${RT_JOBS:-}" ] && [ "$free" -ge $((4500000 * $(nproc))) ]; then
        nproc
    fi
}

# Shows once more the lines of a part that say why it failed, then the free disk and memory.
explain() {
    echo "== why $1 failed"
    grep -E 'NOT PROVED|NOT REFUSED|BAD EDIT|FAILED|rt fmt|error|killed|: not proved|no verdict' "$kept/$1.log" | cut -c 1-300 | tail -n 30
    df -h . /tmp
    grep -E 'MemTotal|MemAvailable' /proc/meminfo
}

# Runs the gate.
gate() {
    jobs=$(jobs_of_gate)
    env ${jobs:+RT_JOBS="$jobs"} rt ci
}

# Keeps for `make dist` the program that the gate has proved and built, and the gate's last line. The state is the one that stood
# here before the gate.
keep_gate() {
    if has_passed gate && mkdir -p bin && rm -f bin/aec && cp crates/aec/out/aec bin/aec &&
        python3 packaging/proved.py record "$state" bin/aec && python3 packaging/proved.py gate "$state" "$kept/gate.log"; then
        echo "1 passed, 0 failed"
    else
        echo "the program of the gate isn't kept"
        echo "0 passed, 1 failed"
        return 1
    fi
}

processors=$(getconf _NPROCESSORS_ONLN)
if [ -z "$checked" ]; then
    state=$(python3 packaging/proved.py state)
    # As measured on 30 November 2026, with nothing beside it.
    work=105
    echo "make test has about $work minutes of work for one processor, so at least $((work / processors)) for the $processors of this machine."
    echo "On four it took 32. Some kits don't prove crates again whose files are as they were in an earlier run on this machine."
fi
echo "$parts" > "$kept/parts"
last=
while read -r name command; do
    part "$name" $command
    if ! has_passed "$name"; then
        last=${last:-$name}
    fi
done < "$kept/parts"
if [ -n "$last" ]; then
    explain "$last"
fi
echo "== seconds of each part, on $processors processors"
cat "$kept/times"
if [ -n "$checked" ]; then
    failed=$(grep -c ', FAILED$' "$kept/times" || true)
    echo "make check, parts: $((number - failed)) passed, $failed failed"
    exit "$((failed > 0))"
fi
last=${last:-gate}
echo "== $last"
tail -n 1 "$kept/$last.log" | grep -E '[0-9]+ passed, [0-9]+ failed' || echo "0 passed, 1 failed"
has_passed "$last"
