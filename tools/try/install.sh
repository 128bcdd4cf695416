# The installation: everything that a C program needs, the pages that acs.h points
# to, and nothing left behind.

root=$folder/install
made() { "$MAKE" -s "$@" ACS_LIB="$ACS_LIB"; }

says 0 '' made install PREFIX="$root"
for file in lib/libacs.a include/acs.h lib/pkgconfig/acs.pc share/man/man3/acs.3 \
    share/man/man3/acs_check.3 share/man/man3/acs_route.3 share/man/man3/acs_fill.3 \
    share/doc/acs/INTERFACE.md share/doc/acs/RULES.md; do
    says 0 '' test -s "$root/$file"
done
# The example in INTERFACE compiles and links with what was installed.
{
    sed -n '/^```c$/,/^```$/p' docs/INTERFACE.md | awk '/^```c$/ { block++; next } /^```$/ { next } block == 2'
    echo 'int main(void) { static uint8_t none[1]; ask(none, 0); return 0; }'
} > "$folder/example.c"
if command -v pkg-config > /dev/null; then
    flags=$(PKG_CONFIG_PATH="$root/lib/pkgconfig" pkg-config --cflags --libs acs)
    says 0 "$version" env PKG_CONFIG_PATH="$root/lib/pkgconfig" pkg-config --modversion acs
else
    flags="-I$root/include -L$root/lib -lacs"
fi
# shellcheck disable=SC2086 # flags and commands of several words
says 0 '' $CC -std=c99 -Wall -Wextra -Wpedantic -Werror -o "$folder/example" "$folder/example.c" $flags
# shellcheck disable=SC2086
says 0 'refused' $run "$folder/example"
if [ "$CC" = gcc ] && command -v g++ > /dev/null; then
    # shellcheck disable=SC2086
    says 0 '' g++ -std=c++98 -Wall -Wextra -Wpedantic -Werror -o "$folder/example++" \
        -x c++ "$folder/example.c" -x none $flags
    # shellcheck disable=SC2086
    says 0 'refused' $run "$folder/example++"
fi
# The page of a call leads to the manual page.
if command -v groff > /dev/null; then
    call_page() { (cd "$root/share/man" && groff -man -Tascii -P-cbou man3/acs_route.3); }
    says 0 'enum acs_kind acs_answer_kind(uint64_t answer)' call_page
fi
says 0 '' made uninstall PREFIX="$root"
says 0 '' test -z "$(find "$root" -type f)"

# A path that would be written wrongly into acs.pc is refused, and nothing installed.
says 2 'letters, digits' made install PREFIX="$folder/with space"
says 0 '' test ! -e "$folder/with"
says 0 '' test ! -e "$folder/with space"
says 2 'letters, digits' made install PREFIX="$root" LIBDIR="$folder/a|b"
# A folder to install below may have one.
says 0 '' made install PREFIX=/usr DESTDIR="$folder/with space"
says 0 '' test -s "$folder/with space/usr/include/acs.h"
