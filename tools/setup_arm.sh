#!/bin/sh
# Makes a Debian machine with an Arm processor ready for `make demo`, `make compare`
# and the rest: the archive is for x86-64, so its programs are built by a cross
# compiler and run by an emulator. Run it once, as root.
#
# A time that is measured under the emulator says nothing by itself.
set -eu

machine=$(uname -m)
if [ "$machine" = x86_64 ]; then
    echo "This machine is x86-64: gcc and cargo are all it needs."
    exit 0
fi
if ! command -v apt-get > /dev/null || ! command -v dpkg > /dev/null; then
    echo "setup_arm.sh: this needs Debian's apt-get and dpkg" >&2
    exit 2
fi
if [ "$(id -u)" -ne 0 ]; then
    echo "setup_arm.sh: run it as root, it installs packages" >&2
    exit 2
fi

dpkg --add-architecture amd64
apt-get update
apt-get install -y make python3 gcc-x86-64-linux-gnu libc6-dev:amd64 \
    rustc cargo libstd-rust-dev:amd64 qemu-user

# Does a program for x86-64 come to life here?
folder=$(mktemp -d)
trap 'rm -rf "$folder"' EXIT
cat > "$folder/try.c" <<'PROGRAM'
#include <stdio.h>
int main(void) { puts("a C program for x86-64 runs here"); return 0; }
PROGRAM
x86_64-linux-gnu-gcc -o "$folder/try" "$folder/try.c"
qemu-x86_64 -L / "$folder/try"
cat > "$folder/try.rs" <<'PROGRAM'
fn main() { println!("a Rust program for x86-64 runs here"); }
PROGRAM
rustc --target x86_64-unknown-linux-gnu -C linker=x86_64-linux-gnu-gcc \
    -o "$folder/try-rust" "$folder/try.rs"
qemu-x86_64 -L / "$folder/try-rust"
