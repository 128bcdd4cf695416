# Refusals 1 to 7, each with what a technician has to know.

: > "$folder/empty"
head -c 23 "$f" > "$folder/short"
head -c 24 "$f" > "$folder/header-only"
cat "$f" "$f" > "$folder/twice"
head -c 5000000 /dev/zero | cat "$f" - > "$folder/huge"
head -c 5000000 /dev/zero > "$folder/zeros"
echo 'This is a text of more than twenty-four bytes.' > "$folder/text"
patch flags 3 '\004'
patch count 6 '\001\001'
patch fewer 6 '\005\000'
patch times 16 '\000\000\000\000\000\000\000\000'

# 1: the file.
expect 1 'Refused (1): this is not a whole snapshot: the file is empty' "$folder/empty"
expect 1 'the file has 23 bytes' "$folder/short"
expect 1 'does not start with the mark' "$folder/text"
expect 1 'does not start with the mark' "$folder/zeros"
expect 1 'its flags are 04h' "$folder/flags"
expect 1 'it announces 257 records' "$folder/count"
expect 1 'which is earlier' "$folder/times"
expect 1 'take 888 bytes, and the file has 650. It was cut off' "$snapshots/torn.acs"
expect 1 'take 888 bytes, and the file has 24. It was cut off' "$folder/header-only"
expect 1 'take 744 bytes, and the file has 888. It was added to' "$folder/fewer"
expect 1 'the file has 1776. It was added to' "$folder/twice"
expect 1 'the file has more than 36888. It was added to' "$folder/huge"
# 2 and 3: version and time.
expect 1 'Refused (2): the snapshot is of version 99' "$snapshots/other-version.acs"
expect 1 'Refused (3): the snapshot was good until 1580515199' "$snapshots/expired.acs"
expect 1 'Refused (3): the snapshot was good until 4102444800' "$f" --now 4102444801
expect 1 'Refused (3): the snapshot was taken at 1704067200' "$f" --now 1704067199
expect 1 'and it is now 18446744073709551615.' "$f" --now 18446744073709551615

# 4: it is the file's record that isn't acceptable, with the rules that it can break.
endpoint_rules='an endpoint; such a record can break R1, R2, R3, R4, R5, R10, R11 and R13 of docs/RULES.md'
expect 1 'Refused (4): record 5 of the file is not acceptable' "$snapshots/faulty-record.acs"
expect 1 'said of the file, not of the hardware' "$snapshots/faulty-record.acs"
expect 1 "$endpoint_rules" "$snapshots/faulty-record.acs"
expect 1 '"What a snapshot cannot describe" in docs/INTERFACE.md' "$snapshots/faulty-record.acs"
expect 1 '     5  endpoint         04:00.0      3' "$snapshots/faulty-record.acs"
expect 1 '0: 80200000h-80200FFFh' "$snapshots/faulty-record.acs"
expect 1 '     3  downstream port  02:01.0' "$snapshots/faulty-record.acs"
lacks 'faulty:' service "$snapshots/faulty-record.acs"
lacks 'Take a new' service "$snapshots/faulty-record.acs"
patch function "$(at 5 5)" '\001'
expect 1 "$endpoint_rules" "$folder/function"
expect 1 '     5  endpoint         04:00.1' "$folder/function"
patch newer-bit "$(at 2 8)" '\377'
expect 1 'record 2 of the file is not acceptable' "$folder/newer-bit"
expect 1 'a downstream port; such a record can break R1, R2, R5, R6, R7, R8, R9, R11, R12, R13, R14 and R15' \
    "$folder/newer-bit"
expect 1 '08FFh' "$folder/newer-bit"
patch bus-40 "$(at 0 4)" '\100'
expect 1 'a root port; such a record can break R1, R2, R5, R6, R7, R8, R9, R11, R12, R14 and R15' \
    "$folder/bus-40"
expect 1 '     0  root port        40:01.0' "$folder/bus-40"
patch upstream "$(at 1 1)" '\001'
expect 1 'an upstream port; such a record can break R1, R2, R3, R4, R5, R6, R9, R11 and R13' \
    "$folder/upstream"
patch kind-9 "$(at 4 0)" '\011'
expect 1 'Its kind is 9, which breaks R1' "$folder/kind-9"
patch blank "$(at 4 12)" '\001'
expect 1 'bytes 12-15 not 0' "$folder/blank"

# 5 to 7: the query.
expect 1 'Refused (5): record 2, downstream port 02:00.0, Port 1 cannot send' "$f" 2 read 0x0 03:00.0
expect 1 'Refused (5): there is no record 6' "$f" 6 read 0x0 03:00.0
expect 1 'Refused (6): the request runs over a 4,096-byte boundary: 8 bytes at 80100FFCh' \
    "$off" 4 write 0x80100FFC 03:00.0 --length 2
expect 1 'Refused (7): the hop buffer is too short; 1,028 bytes are always enough' \
    "$f" 4 write 0x80100000 03:00.0 --room 19
expect 1 'Refused (7): the hop buffer is too short' "$f" 4 write 0x80100000 03:00.0 --room 0
