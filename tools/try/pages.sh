# The pages: what they promise, that they agree with the header, and that what
# they point to is there.

# Each function of the header stands in the manual page; each call in INTERFACE and
# in README's table.
for name in $(sed -n -e 's/^static inline .*[ *]\(acs_[a-z_]*\)(.*/\1/p' \
    -e 's/^uint64_t \(acs_[a-z_]*\)(.*/\1/p' include/acs.h); do
    has docs/acs.3 "$name"
done
for name in $(sed -n 's/^uint64_t \(acs_[a-z_]*\)(.*/\1/p' include/acs.h); do
    has docs/INTERFACE.md "uint64_t $name("
    has README.md "| \`$name\` |"
done
# Each enum too, by its name.
for name in $(sed -n 's/^enum \(acs_[a-z_]*\) {/\1/p' include/acs.h); do
    has docs/INTERFACE.md "enum $name"
done
has docs/acs.3 "acs $version"
has docs/INTERFACE.md "$version"
if command -v groff > /dev/null; then
    said=$(groff -man -Tutf8 -ww -z docs/acs.3 2>&1)
    says 0 '' test -z "$said"
fi

# What isn't said elsewhere: rules, limits of a snapshot, promises.
for page in include/acs.h docs/INTERFACE.md docs/acs.3 README.md; do
    has "$page" 'docs/RULES.md'
done
says 0 '' test -f docs/RULES.md
for rule in R1 R15 N4 U1 U6; do
    has docs/RULES.md "$rule"
done
has docs/INTERFACE.md '## What a snapshot cannot describe'
for words in 'Newer ACS bits' 'Root ports off bus 0' 'Several host bridges' 'several functions' \
    'Bridges to PCI' 'SR-IOV' 'ARI'; do
    has docs/INTERFACE.md "$words"
done
has docs/INTERFACE.md '## What is stable'
has docs/INTERFACE.md '`acs_route` goes away'
has docs/acs.3 'before 1.0'
has README.md 'before 1.0'
lacks 'Later calls will stand beside these two' cat docs/INTERFACE.md

# README: snapshots, no rt, how long, acsroute, the kit.
has README.md '## Where snapshots come from'
has README.md 'ACS_LIB='
has README.md 'rt version'
has README.md 'cd crates/acsroute && rt run'
has README.md '--for-acsroute | crates/acsroute/out/acsroute'
has README.md 'minutes'
says 0 'ACS_LIB' "$MAKE" -s help
# What README quotes is what is printed.
quoted=$(sed -n '/^    From record 4/,/^    Delivered/s/^    //p' README.md)
expect 0 "${quoted:-the words that README quotes}" "$f" 03:00.0 write 80100000
# Every file and folder that a page names in backquotes is there.
named() {
    grep -o -h '`[A-Za-z_./-]*`' README.md docs/INTERFACE.md examples/README.md | tr -d '`' | sort -u |
        grep -e '^docs/' -e '^tools/' -e '^examples/' -e '^include/' |
        while read -r path; do
            [ -e "$path" ] || echo "$path is not there"
        done
}
lacks 'is not there' named
