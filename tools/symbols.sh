#!/bin/sh
# What the archive defines, what it needs from its host, and how much writable
# memory of its own it has:
#
#     tools/symbols.sh LIBACS.A [PREFIX]      PREFIX: of nm and size, as x86_64-linux-gnu-
#
# Exit status 1 if it has writable memory, or needs more than the C library's
# plain functions on memory: then it could keep something between calls.
set -eu

archive=$1
prefix=${2:-}

defined=$("${prefix}nm" -g --defined-only "$archive" | awk '$2 == "T" { print $3 }' | sort)
# A symbol that one member needs and another defines is nothing from outside.
needed=$("${prefix}nm" -g --undefined-only "$archive" | awk '$1 == "U" { print $2 }' | sort -u)
needed=$(for symbol in $needed; do
    echo "$defined" | grep -qxF "$symbol" || echo "$symbol"
done)
writable=$("${prefix}size" -A "$archive" | awk '$1 ~ /^\.(data|bss|tdata|tbss)/ && $1 !~ /^\.data\.rel\.ro/ { sum += $2 } END { print sum + 0 }')

echo "defines: $(echo "$defined" | tr '\n' ' ')"
echo "needs:   $(echo "${needed:-nothing}" | tr '\n' ' ')"
echo "writable memory: $writable bytes"

for symbol in $needed; do
    case $symbol in
    memcpy | memmove | memset | memcmp | bcmp) ;;
    *) echo "symbols.sh: $symbol is more than a function on memory" >&2; exit 1 ;;
    esac
done
[ "$writable" -eq 0 ]
