# build/fill: what it prints of a bridge's configuration space, what it refuses and
# in which words, and what is asked of it wrongly.

# shellcheck disable=SC2086 # RUN is a command with its arguments
fill() { $run build/fill "$@"; }

# fills STATUS WORDS ARGUMENT..: fill ends with the status, and prints the words
fills() {
    expected=$1
    wanted=$2
    shift 2
    says "$expected" "$wanted" fill "$@"
}

port=$images/downstream-port.config
rootport=$images/root-port.config

# A copy of an image with some bytes written anew: IMAGE, NAME, OFFSET, BYTES
rewrite() {
    cp "$1" "$folder/$2"
    # shellcheck disable=SC2059 # the bytes are written as escapes
    printf "$4" | dd of="$folder/$2" bs=1 seek="$(($3))" conv=notrunc 2> /dev/null
}

# The command line, and files that can't be read.
fills 2 'usage: fill CONFIG...'
fills 0 'usage: fill CONFIG...' --help
fills 0 'usage: fill CONFIG...' -h
fills 0 '/sys/bus/pci/devices/*/config of Linux when root reads it' --help
fills 0 'Exit status: 0 all filled, 1 some refused by the library, 2 a file could not be read or
the arguments are wrong.' --help
fills 0 '(a letter is on, . is off, - is
not in the Capability)' --help
fills 0 "fill of acs $version" --version
fills 2 'no such option: --what' --what "$port"
fills 2 'no such option: --what' "$port" --what
lacks 'own bus' fill "$port" --what
fills 2 'cannot open the image: No such file' "$folder/missing"
fills 2 'cannot read the image: Is a directory' "$folder"
fills 2 'cannot open the image' ''

# Every field that is filled, in one piece.
fills 0 "$port
  own bus      02h
  secondary    03h
  subordinate  03h
  range 0      the memory window: 80000000h-800FFFFFh
  range 1      the prefetchable window: 4000000000h-40FFFFFFFFh
  ACS          Capability 087Fh, Control 0037h (V B R . U E .)
  vector       8 bits: 04 00 00 00
  structure    ACS stands at 160h and has 12 bytes
A filled record is not thereby acceptable: acs_check says that of a whole snapshot." "$port"
fills 0 "$rootport
  own bus      00h
  secondary    01h
  subordinate  04h
  range 0      the memory window: 80000000h-803FFFFFh
  range 1      the prefetchable window: closed
  ACS          Capability 0000h, Control 0000h (- - - - - - -)
  vector       none
  structure    none: the list of extended capabilities has no ACS
A filled record" "$rootport"
# A vector of 256 bits, and a structure that ends where the image does.
fills 0 '  vector       256 bits: 04 00 00 00 00 00 00 00 00 00 00 00 00 00 00 00
               00 00 00 00 00 00 00 00 00 00 00 00 00 00 00 80
  structure    ACS stands at FD8h and has 40 bytes' "$images/vector-256.config"
# Vectors in whole doublewords; without E none follows, whatever the size says.
rewrite "$port" nine 0x164 '\177\011\067\000\004\000\000\000\000\001'
fills 0 'vector       9 bits: 04 00 00 00
' "$folder/nine"
rewrite "$port" thirty-three 0x164 '\177\041\067\000\004\000\000\000\001'
fills 0 'vector       33 bits: 04 00 00 00 01 00 00 00
  structure    ACS stands at 160h and has 16 bytes' "$folder/thirty-three"
rewrite "$port" no-egress 0x164 '\137\010'
fills 0 'ACS          Capability 085Fh, Control 0037h (V B R . U E .)
  vector       none: the Capability names 8 bits, but has no E
  structure    ACS stands at 160h and has 8 bytes' "$folder/no-egress"
# Registers are printed as they are read: bits without a letter too.
rewrite "$port" raw 0x164 '\377\010\377\377'
fills 0 'Capability 08FFh, Control FFFFh (V B R C U E T)' "$folder/raw"
# No list at all: zeros at 100h.
rewrite "$rootport" no-list 0x100 '\000\000\000\000'
fills 0 'structure    none: the list of extended capabilities has no ACS' "$folder/no-list"
# Windows: 1 MiB is the least, base above limit is closed, and the upper halves
# count only where the prefetchable base's low four bits are not 0.
rewrite "$rootport" least 0x20 '\020\200\020\200'
fills 0 'range 0      the memory window: 80100000h-801FFFFFh' "$folder/least"
rewrite "$rootport" closed 0x20 '\040\200\020\200'
fills 0 'range 0      the memory window: closed' "$folder/closed"
rewrite "$port" low-half 0x24 '\000\220\360\220'
fills 0 'range 1      the prefetchable window: 90000000h-90FFFFFFh' "$folder/low-half"
rewrite "$port" all-halves 0x24 '\001\000\361\377\000\000\000\000\377\377\377\377'
fills 0 'range 1      the prefetchable window: 00000000h-FFFFFFFFFFFFFFFFh' "$folder/all-halves"
rewrite "$port" upper-closed 0x28 '\101\000\000\000'
fills 0 'range 1      the prefetchable window: closed' "$folder/upper-closed"

# 8: lengths, each with what to do.
: > "$folder/empty"
head -c 1 "$port" > "$folder/one"
head -c 4095 "$port" > "$folder/cut"
head -c 4096 /dev/zero > "$folder/zeros"
head -c 4097 /dev/zero > "$folder/long"
fills 1 'Refused (8): the file is empty, and a configuration space has 4,096 bytes. Read it again, as root.' \
    "$folder/empty"
fills 1 'Refused (8): the file has 1 byte of 4,096: it was cut off.' "$folder/one"
fills 1 'Refused (8): the file has 4095 bytes of 4,096: it was cut off. Read it again, whole and as root.' \
    "$folder/cut"
fills 1 'Refused (8): the file has 64 bytes of 4,096: Linux gives no more to users other than root. Read it as root; 4,096 bytes are there only for a PCI Express device.' \
    "$images/user.config"
fills 1 'Refused (8): the file has 256 bytes of 4,096: the extended part is missing, in which ACS stands. Read it as root; 4,096 bytes are there only for a PCI Express device, and 256 are all that another has.' \
    "$images/not-extended.config"
fills 1 'Refused (8): the file has more than 4,096 bytes, so it is not the configuration space of one device.' \
    "$folder/long"
fills 1 'more than 4,096 bytes' /dev/zero
fills 0 'range 1      the prefetchable window: 00000000h-000FFFFFh' "$folder/zeros"
for file in "$folder/empty" "$folder/cut" "$folder/long" "$images/user.config"; do
    fills 1 'Nothing was filled.' "$file"
    lacks 'own bus' fill "$file"
    lacks 'does not answer' fill "$file"
    lacks 'A filled record' fill "$file"
done

# A device that does not answer, before the number.
silence='  The device does not answer: every byte is FFh. It is gone, asleep or was pulled.'
fills 1 "$silence
  Refused (9): the image's list of extended capabilities is bad, or the ACS structure in it.
  Nothing was filled." "$images/silent.config"
head -c 64 "$images/silent.config" > "$folder/silent-64"
fills 1 "$silence
  Refused (8): the file has 64 bytes" "$folder/silent-64"
rewrite "$images/silent.config" nearly 0xFFF '\376'
fills 1 'Refused (9): the list of extended capabilities is bad, in one of these ways' "$folder/nearly"
lacks 'does not answer' fill "$folder/nearly"

# 9: all that may be wrong with the list.
rewrite "$rootport" odd-offset 0x102 '\041\024'
rewrite "$rootport" to-itself 0x102 '\001\020'
rewrite "$rootport" acs-at-the-end 0x102 '\301\377'
rewrite "$folder/acs-at-the-end" last-doubleword 0xFFC '\015\000\001\000'
for file in "$images/bad-offset.config" "$images/comes-back.config" "$images/acs-version-2.config" \
    "$images/past-the-end.config" "$folder/odd-offset" "$folder/to-itself" "$folder/last-doubleword"; do
    fills 1 'Refused (9): the list of extended capabilities is bad, in one of these ways: an offset that cannot be (below 100h and not 0, or no multiple of 4), an offset that comes back, an ACS structure of another version than 1, or one that runs past the end.' \
        "$file"
    fills 1 'Nothing was filled.' "$file"
    lacks 'own bus' fill "$file"
    lacks 'does not answer' fill "$file"
done
# The last doubleword may hold another capability's header.
fills 0 'the list of extended capabilities has no ACS' "$folder/acs-at-the-end"

# No bridge: it is filled, and said.
fills 0 'NO BRIDGE: the header type (byte 0Eh) is 00h, and a bridge has 01h; acs_fill does not test it.' \
    "$images/endpoint.config"
fills 0 'What stands where a bridge has its bus numbers and windows means something else here.' \
    "$images/endpoint.config"
fills 0 'ACS          Capability 004Ch, Control 0004h (- - R . - - .)' "$images/endpoint.config"
rewrite "$port" cardbus 0x0E '\202'
fills 0 'NO BRIDGE: the header type (byte 0Eh) is 02h' "$folder/cardbus"
# Bit 7 says only that there are several functions.
lacks 'NO BRIDGE' fill "$port"
lacks 'NO BRIDGE' fill "$images/vector-256.config"

# Several files: each is printed, the worst gives the exit status, and the closing
# line stands once.
fills 0 "$rootport
  own bus      00h" "$port" "$rootport"
fills 1 "$port
  own bus      02h" "$images/silent.config" "$port"
fills 2 "$port
  own bus      02h" "$folder/missing" "$images/silent.config" "$port"
closing() { fill "$@" | grep -c 'A filled record is not thereby acceptable'; }
says 0 1 closing "$port" "$rootport" "$images/silent.config"

# Nowhere to print to.
if [ -e /dev/full ]; then
    full() { fill "$port" > /dev/full; }
    says 2 'fill: the answer could not be written.' full
fi

# The samples are what their script makes; make example shows three of them.
if command -v python3 > /dev/null; then
    says 0 'images are as made' python3 tools/make_images.py --check "$images"
fi
example() { "$MAKE" -s example ACS_LIB="$ACS_LIB" CC="$CC" RUN="$run"; }
for words in 'structure    ACS stands at 160h' 'the extended part is missing' 'The device does not answer'; do
    says 0 "$words" example
done
says 0 'make images ' "$MAKE" -s help
says 0 'three calls' "$MAKE" -s help
