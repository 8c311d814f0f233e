#!/bin/sh
# Installs the program, the library, the command aecp and their pages below PREFIX, or removes them again. It needs no compiler and no
# Python; to run aecp needs Python 3.9 or newer.
#
#     sh install.sh PREFIX
#     sh install.sh uninstall PREFIX
#
# The program is that for x86-64-v3 if this processor has all features of this level, else that for x86-64-v2. AECP_LEVEL in the
# environment names the one to install instead.
#
# Replaces files of the same names without asking. The files are those of the folders bin, lib, include and share beside this script;
# `uninstall` removes these. If libaec's client is installed as `aec`, set PROGRAM=aec-proved in the environment:
# the program gets this name. Set it for `uninstall` too.
set -eu
umask 022
from=$(cd "$(dirname "$0")" && pwd)
program=${PROGRAM:-aec}

usage() {
    echo "usage: [PROGRAM=NAME] [AECP_LEVEL=x86-64-v2|x86-64-v3] sh install.sh PREFIX, or [PROGRAM=NAME] sh install.sh uninstall PREFIX" >&2
    exit 1
}

@LEVEL_OF@
# The file here that is installed as a file of PREFIX: of the programs, the one for the level.
source_of() {
    case $level/$1 in
        x86-64-v3/bin/aec) echo "$from/x86-64-v3/aec" ;;
        *) echo "$from/$1" ;;
    esac
}

# All files, as paths below this folder.
files() {
    (cd "$from" && find bin lib include share \( -type f -o -type l \) | sort)
}

# Removes what Python has compiled of the files.
remove_compiled() {
    files | sed -n 's|/[^/]*[.]py$||p' | sort -u | while IFS= read -r folder; do rm -rf "$prefix/$folder/__pycache__"; done
}

# The path of a file below PREFIX.
place() {
    case $1 in
        bin/aec) echo "bin/$program" ;;
        share/man/man1/aec.1) echo "share/man/man1/$program.1" ;;
        share/bash-completion/completions/aec) echo "share/bash-completion/completions/$program" ;;
        share/zsh/site-functions/_aec) echo "share/zsh/site-functions/_$program" ;;
        share/doc/aec/*) echo "share/doc/$program/${1#share/doc/aec/}" ;;
        *) echo "$1" ;;
    esac
}

# The text of a file that contains the program's name.
renamed() {
    case $1 in
        share/man/man1/aec.1 | share/man/man1/aecp.1) sed "s|share/doc/aec/|share/doc/$program/|" "$from/$1" ;;
        share/bash-completion/completions/aec) sed "/^complete /s/ aec\$/ $program/" "$from/$1" ;;
        share/zsh/site-functions/_aec) sed "/^#compdef /s/ aec\$/ $program/" "$from/$1" ;;
        *) return 1 ;;
    esac
}

install_file() {
    to=$prefix/$(place "$1")
    mkdir -p "$(dirname "$to")"
    rm -f "$to"
    if [ -L "$from/$1" ]; then
        ln -s "$(readlink "$from/$1")" "$to"
        return
    fi
    renamed "$1" > "$to" || cat "$(source_of "$1")" > "$to"
    mode=644
    [ ! -x "$from/$1" ] || mode=755
    chmod $mode "$to"
}

# Fails unless the program is installed below PREFIX under this name, with its pages: otherwise libaec's bin/aec could be removed.
check_installed() {
    if [ ! -e "$prefix/share/doc/$program/README.md" ]; then
        echo "nothing was removed: below $prefix this script hasn't installed the program as $program; set PROGRAM to its name" >&2
        exit 1
    fi
}

# Removes the folders of the files, from the deepest up, if they are empty. PREFIX and its usual folders stay.
remove_folders() {
    files | while IFS= read -r file; do
        folder=$(dirname "$(place "$file")")
        while [ "$folder" != . ]; do
            echo "$folder"
            folder=$(dirname "$folder")
        done
    done | sort -ru | while IFS= read -r folder; do
        case $folder in
            bin | lib | include | share | share/man | share/man/man1 | share/man/man3 | share/doc) ;;
            *) [ ! -d "$prefix/$folder" ] || rmdir "$prefix/$folder" 2> /dev/null || true ;;
        esac
    done
}

action=install
if [ "${1:-}" = uninstall ]; then
    action=uninstall
    shift
fi
case ${1:-} in
    '' | -*) usage ;;
    /*) prefix=$1 ;;
    *) prefix=$PWD/$1 ;;
esac
prefix=${prefix%/}
[ $# = 1 ] || usage
case $program in
    aecp | */*) usage ;;
esac
level=${AECP_LEVEL:-$(level_of /proc/cpuinfo)}
case $level in
    x86-64-v2 | x86-64-v3) ;;
    *) usage ;;
esac

if [ $action = install ]; then
    files | while IFS= read -r file; do install_file "$file"; done
    echo "installed in $prefix: bin/$program for $level, lib/libaecp.a, lib/libaecp.so.1, bin/aecp. If $prefix/lib is on the loader's path, run ldconfig."
    found=$(command -v "$program" || true)
    if [ -z "$found" ]; then
        echo "put $prefix/bin on PATH"
    elif ! [ "$found" -ef "$prefix/bin/$program" ]; then
        echo "the command $program is another program: put $prefix/bin first on PATH"
    fi
else
    check_installed
    files | while IFS= read -r file; do rm -f "$prefix/$(place "$file")"; done
    remove_compiled
    remove_folders
    echo "removed from $prefix"
fi
