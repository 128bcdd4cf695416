# The header: its numbers, words and writers; and that it compiles everywhere.

says 0 ', 0 wrong' $run build/names "$snapshots"
says 0 'acs.h by itself' "$MAKE" -s header CC="$CC"
if command -v clang > /dev/null; then
    says 0 'acs.h by itself: clang, c99' "$MAKE" -s header CC=clang
fi
has include/acs.h 'ZERO IS NO SUCCESS'
has include/acs.h 'ZERO IS A LETTER'
has include/acs.h '0 is a fill without ACS, not a fine record'
lacks 'every layout and rule in full' cat include/acs.h
# Each inline function has a comment right above it.
undocumented() {
    awk '/^static inline/ && last !~ /\*\/$/ { print FILENAME ": " $0 } { last = $0 }' include/acs.h
}
lacks 'static inline' undocumented
