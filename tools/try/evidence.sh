# What an answer rests on, and the listing: enough to keep an answer as evidence.

now='--now 2000000000'
for words in "file         $f, 888 bytes" "SHA-256      $(sha256sum < "$f" | cut -c 1-64)" \
    'taken        1704067200 (2024-01-01 00:00:00 UTC)' \
    'good until   4102444800 (2100-01-01 00:00:00 UTC)' \
    'asked as of  2000000000 (2033-05-18 03:33:20 UTC)' \
    'TLP header   40000001 0300000F 80100000' \
    'flags        02h: root ports may not reach each other; redirected requests are reflected' \
    "library      acs $version" \
    'in one line  delivered 5 checked 2:2 0:5 0:6 3:6 5:7'; do
    # shellcheck disable=SC2086 # an option and its value
    expect 0 "$words" "$f" 4 write 80100000 $now
done

# The ports that decided: registers as read, the rule, the peer and the vector bit.
two='decided by   record 2, downstream port 02:00.0, Port 1: Capability 087Fh, Control'
root='decided by   record 0, root port 00:01.0, Port 0: Capability 087Fh, Control'
peer='rule U4: its peer is record 3, downstream port 02:01.0, Port 2'
expect 0 "$two 0017h (V B R . U . .)
               $peer; vector bit 2 reads 0 (not asked: E is off)" "$f" 4 write 80100000
expect 0 "$root 0017h (V B R . U . .)
               rule U3: the address is below this very port; then U10: flag bit 1 is 1" "$f" 4 write 80100000
expect 0 'this very port; then U10: flag bit 1 is 0' "$snapshots/fabric-f-17h-blocking.acs" 4 write 80100000
expect 0 'this very port; then U11: reflected' "$snapshots/fabric-f-18h.acs" 5 completion 03:00.0
lacks 'U10' service "$snapshots/fabric-f-07h.acs" 4 write 80100000
expect 0 'vector bit 0 reads 0 (not asked: E is off); then U9: flag bit 0 is 1' \
    "$snapshots/chassis.acs" cb:00.0 write 80000000
expect 0 "$two 0037h (V B R . U E .)
               $peer; vector bit 2 reads 0" "$snapshots/fabric-f-37h.acs" 4 write 80100000
expect 0 "$two 0037h (V B R . U E .)
               $peer; vector bit 2 reads 1" "$snapshots/fabric-f-37h-bit-2.acs" 4 write 80100000
expect 0 "$two 0020h (. . . . . E .)
               $peer; vector bit 2 reads 1" "$snapshots/fabric-f-20h-bit-2.acs" 4 read 80100000
expect 0 "$two 0055h (V . R . U . T)
               $peer; vector bit 2 reads 0 (not asked: T is on" \
    "$snapshots/fabric-f-55h.acs" 4 write 80100000 --at 2
expect 0 "rule U1: requester's bus 04h, buses below 03h-03h" "$f" 4 write 80100000 04:00.0
expect 0 'rule U2: address type 2' "$f" 4 write 80100000 --at 2
expect 0 'rule U5: no port of this switch covers the address' "$off" 4 write 1000
expect 0 'rule U6: no root port covers the address' "$off" 4 write 1000
expect 0 'C is on, Relaxed Ordering clear' "$snapshots/fabric-f-18h.acs" 5 completion 03:00.0
expect 0 'decided by   no port: going down, no access control applies (rule D1)' "$f" host write 80100000
# A port that is only gone down through decides nothing.
lacks 'decided by   record 3' service "$f" 4 write 80100000

# A refusal rests on something too.
expect 1 'in one line  refusal 4 5' "$snapshots/faulty-record.acs"
expect 1 'in one line  refusal 3 0' "$snapshots/expired.acs"
expect 1 "file         $snapshots/torn.acs, 650 bytes" "$snapshots/torn.acs"
lacks 'taken  ' service "$snapshots/torn.acs"
expect 1 'more than 36888 bytes' "$folder/huge"

# The listing shows flags and vectors: samples that route differently list differently.
expect 0 'vector of 8: 2' "$snapshots/fabric-f-37h-bit-2.acs"
expect 0 'vector of 8: none' "$snapshots/fabric-f-37h.acs"
expect 0 'flags        00h: root ports may not reach each other; redirected requests are blocked' \
    "$snapshots/fabric-f-17h-blocking.acs"
expect 0 'flags        03h: root ports may reach each other; redirected requests are reflected' \
    "$snapshots/chassis.acs"
expect 0 'vector of 16: 4-11' "$snapshots/chassis.acs"
expect 0 '     2  downstream port  02:00.0      1  03-03     1  087Fh       0017h V B R . U . .' "$f"
patch past "$(at 2 17)" '\006'
expect 0 'vector of 8: none (past the size, not read: 9-10)' "$folder/past"
# A size field of 00h: 256 bits with E in the Capability, none without.
expect 0 'vector of 256: 2' "$snapshots/fabric-f-37h-full-bit-2.acs"
expect 0 'vector of 256: 255' "$snapshots/fabric-f-20h-full-port-255.acs"
expect 0 'vector of 255: none (past the size, not read: 255)' "$snapshots/fabric-f-20h-ffh-port-255.acs"
patch noegress "$(at 2 8)" '\137\000'
lacks 'vector of 256' service "$folder/noegress"
expect 0 'vector bit 255 reads 1' "$snapshots/fabric-f-20h-full-port-255.acs" 4 read 80100000
expect 0 'vector bit 255 reads 0' "$snapshots/fabric-f-20h-ffh-port-255.acs" 4 read 80100000
for file in "$snapshots"/fabric-f-*.acs; do
    service "$file" --now 2000000000 | grep -v -e ' file ' -e SHA-256 | cksum
done > "$folder/listings"
says 0 '' test "$(sort -u < "$folder/listings" | wc -l)" -eq "$(wc -l < "$folder/listings")"
