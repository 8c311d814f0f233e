#!/bin/sh
# Proves and builds the library for C, with every crate that it uses, and leaves bin/libaecp.a and bin/libaecp.so: the names
# that begin with aecp_ are all that they define for others, and the C library is all that they need. With the word --link only
# the last step is made, on the archive that is there, or on the one that the variable ARCHIVE names; `--link FOLDER` leaves both files
# there instead of in bin. Run from the top of the repository by `make library`.
set -eu
bin=${2:-bin}
mkdir -p "$bin"
log=$bin/library.log
archive=crates/aec_c/out/libaec_c.a

if ! command -v rt > /dev/null; then
    echo "no command 'rt': the Rattle kit's folder bin has to be on the path" >&2
    exit 1
fi
kit=$(dirname "$(rt doc)")

if [ "${1:-}" != --link ]; then
    echo "proving aec_c and the crates below it"
    if ! (cd crates/aec_c && rt lib) > "$log" 2>&1; then
        echo "aec_c isn't proved: $log has the checker's lines" >&2
        exit 1
    fi
fi

# One object of the archive and of the kit's calls of malloc, realloc and free: what the exports reach, with no names for others
# but theirs.
roots=$(sed -n 's/.*\(aecp_[a-z_]*\)(.*/-u \1/p' bindings/c/aecp.h | sort -u)
work=$(mktemp -d)
trap 'rm -rf "$work"' EXIT
# shellcheck disable=SC2086
ld -r --gc-sections $roots -o "$work/all.o" --whole-archive "${ARCHIVE:-$archive}" --no-whole-archive "$kit/c/liblibc_c.a"
objcopy --wildcard --keep-global-symbol='aecp_*' "$work/all.o" "$work/aecp.o"
rm -f "$bin/libaecp.a"
ar rcs "$bin/libaecp.a" "$work/aecp.o"
# The shared library binds its calls of the C library when it is loaded; then their addresses are read-only.
${CC:-cc} -shared -o "$bin/libaecp.so" "$work/aecp.o" -Wl,-soname,libaecp.so.1 -Wl,--version-script=bindings/c/aecp.map \
    -Wl,-z,defs -Wl,-z,relro -Wl,-z,now
