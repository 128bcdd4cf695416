#!/bin/sh
# Compiles acs.h by itself and the examples with every warning an error:
#
#     tools/strict.sh CC SOURCE..
#
# acs.h as C99, C11, C++98 and C++17, the sources as C99; by CC, gcc, g++, clang
# and clang++, those that are there. Nothing is linked, so no archive is needed.
set -eu

cc=$1
shift
strict='-Wall -Wextra -Wpedantic -Wshadow -Wconversion -Werror -Iinclude -Iexamples -fsyntax-only'
folder=$(mktemp -d)
trap 'rm -rf "$folder"' EXIT
# Twice, since a header may be included twice; and by a file, since in a file of
# its own clang takes unused functions for forgotten ones.
printf '#include "acs.h"\n#include "acs.h"\nint acs_included(void);\n' > "$folder/header.c"
# A switch that forgets kinds has to be noticed.
cat > "$folder/forgetful.c" <<'PROGRAM'
#include "acs.h"
int unvalidated(uint64_t answer);
int unvalidated(uint64_t answer)
{
    switch (acs_answer_kind(answer)) {
    case ACS_KIND_DELIVERED_UNVALIDATED: return 1;
    case ACS_KIND_REFUSED: return -1;
    }
    return 0;
}
PROGRAM

# by COMPILER LANGUAGE STANDARD..
by() {
    compiler=$1
    language=$2
    shift 2
    for standard in "$@"; do
        # shellcheck disable=SC2086 # a compiler may have words of its own
        $compiler -x "$language" -std="$standard" $strict "$folder/header.c"
        echo "acs.h by itself: $compiler, $standard"
    done
    # shellcheck disable=SC2086
    if $compiler -x "$language" $strict "$folder/forgetful.c" 2> "$folder/said"; then
        echo "strict.sh: $compiler says nothing of a switch that forgets kinds" >&2
        exit 1
    fi
    grep -q 'ACS_KIND_HOST' "$folder/said" || { cat "$folder/said" >&2; exit 1; }
    echo "a switch that forgets a kind is noticed: $compiler"
}

tried=
for compiler in "$cc" gcc clang; do
    case " $tried " in *" $compiler "*) continue ;; esac
    tried="$tried $compiler"
    if [ "$compiler" != "$cc" ] && ! command -v "$compiler" > /dev/null; then
        echo "$compiler is not installed, and not tried"
        continue
    fi
    by "$compiler" c c99 c11
    # shellcheck disable=SC2086
    if $compiler -x c++ -fsyntax-only /dev/null 2> /dev/null; then
        by "$compiler" c++ c++98 c++17
    else
        echo "$compiler has no C++, and is not tried as such"
    fi
    for source in "$@"; do
        # shellcheck disable=SC2086
        $compiler -std=c99 $strict "$source"
    done
    echo "$# sources of the examples: $compiler, c99"
done
for compiler in g++ clang++; do
    if command -v "$compiler" > /dev/null; then
        by "$compiler" c++ c++98 c++17
    else
        echo "$compiler is not installed, and not tried"
    fi
done
