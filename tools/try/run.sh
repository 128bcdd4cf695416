#!/bin/sh
# Asks everything that is promised to somebody who uses the library, and fails
# where it is missing:
#
#     tools/try/run.sh SNAPSHOTS IMAGES          (make try)
#
# from the repository's folder, with build/service, build/fill, build/demo and
# build/names built. Each part stands in a file of its own beside this one and
# asks by the functions below; a new call brings a new part. From the environment:
# ACS_LIB (the archive), CC, MAKE, and RUN, which is put in front of each program,
# as in RUN='valgrind -q'.
set -u

parts='usage inputs refusals answers evidence fill header pages install'

snapshots=$1
# shellcheck disable=SC2034 # used by a part
images=$2
service=build/service
run=${RUN:-}
MAKE=${MAKE:-make}
CC=${CC:-cc}
folder=$(mktemp -d) || exit 2
trap 'rm -rf "$folder"' EXIT
count=0
wrong=0

# went_wrong WHAT, with what was printed in $said
went_wrong() {
    echo "$1"
    printf '%s\n' "$said" | sed 's/^/    /'
    wrong=$((wrong + 1))
}

# says STATUS WORDS COMMAND..: it ends with the status, and prints the words
says() {
    status=$1
    words=$2
    shift 2
    count=$((count + 1))
    said=$("$@" 2>&1)
    got=$?
    if [ "$got" -ne "$status" ]; then
        went_wrong "$*: exit status $got, not $status"
        return
    fi
    case $said in
    *"$words"*) ;;
    *) went_wrong "$*: '$words' is not in what it prints" ;;
    esac
}

# lacks WORDS COMMAND..: it doesn't print the words
lacks() {
    words=$1
    shift
    count=$((count + 1))
    said=$("$@" 2>&1)
    case $said in
    *"$words"*) went_wrong "$*: prints '$words'" ;;
    esac
}

# service ARGUMENT..
# shellcheck disable=SC2086 # RUN is a command with its arguments
service() { $run "$service" "$@"; }

# expect STATUS WORDS ARGUMENT..: the service ends with the status, and prints the words
expect() {
    expected=$1
    wanted=$2
    shift 2
    says "$expected" "$wanted" service "$@"
}

# has FILE WORDS: the file has the words, on one line or across a line's end
has() {
    count=$((count + 1))
    said="$(tr '\n' ' ' < "$1" 2>&1 | sed 's/  */ /g')"
    case $said in
    *"$2"*) ;;
    *)
        said='(the words are missing)'
        went_wrong "$1: '$2' is not in it"
        ;;
    esac
}

# Fabric F with requests redirected, and with nothing on; the library's version.
f=$snapshots/fabric-f-17h.acs
# shellcheck disable=SC2034 # used by the parts
off=$snapshots/fabric-f-00h.acs
# shellcheck disable=SC2034
version=$(sed -n 's/^.define ACS_VERSION "\(.*\)"/\1/p' include/acs.h)

# A copy of the snapshot $f with some bytes written anew: NAME, OFFSET, BYTES
patch() {
    cp "$f" "$folder/$1"
    # shellcheck disable=SC2059 # the bytes are written as escapes
    printf "$3" | dd of="$folder/$1" bs=1 seek="$2" conv=notrunc 2> /dev/null
}
# The offset of byte B of record I
at() { echo $((24 + 144 * $1 + $2)); }

for part in $parts; do
    # shellcheck disable=SC1090 # each part is named above
    . "$(dirname "$0")/$part.sh"
done

echo "$count cases asked, $wrong went wrong"
[ "$wrong" -eq 0 ]
