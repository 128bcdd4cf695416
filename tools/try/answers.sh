# Answers in words: which record, what happens there, and what it means.

expect 0 'accepted: 6 records' "$f" --now 1704067200
expect 0 'accepted: 6 records' "$f" --now 4102444800
expect 0 'accepted: 6 records' --now 2000000000 "$f"
expect 0 'accepted: 114 records' "$snapshots/chassis.acs"

# A record's index, what it is, its ID and its Port Number, in hops too.
expect 0 '1. enters record 2, downstream port 02:00.0, Port 1: redirected up' "$f" 4 write 80100000
expect 0 '2. enters record 0, root port 00:01.0, Port 0: reflected by the root complex' \
    "$f" 4 write 80100000 --room 20
expect 0 '4. enters record 3, downstream port 02:01.0, Port 2: down' "$f" 4 write 80100000
expect 0 '5. reaches record 5, endpoint 04:00.0: delivered' "$f" 4 write 80100000
expect 0 'ends at record 1, upstream port 01:00.0: unclaimed' "$off" 4 write 80300000
expect 0 '257. reaches record 255, endpoint ff:00.0: delivered' \
    "$snapshots/deepest.acs" 255 write 0x80000000
expect 0 'enters record 3, downstream port 02:01.0, Port 2: direct to a peer' \
    "$snapshots/fabric-f-18h.acs" 5 completion 03:00.0 --relaxed
says 0 'enters record 2, downstream port 02:00.0, Port 1: direct to a peer' $run build/demo "$snapshots"
says 0 'All 20 answers came out as docs/RULES.md says' $run build/demo "$snapshots"
lacks 'port 2' $run build/demo "$snapshots"
lacks 'endpoint 5' $run build/demo "$snapshots"
lacks 'port 2' service "$f" 4 write 80100000

# Deliveries: alarm, checked and what that is, and the host's own traffic.
expect 0 'Delivered to record 5, endpoint 04:00.0, UNVALIDATED: it gets there without validation by the root complex.' \
    "$off" 4 read 0x80100FFE 0x0300
expect 0 'checked: the snapshot says that the root complex reflects it (flag bit 1); what its validation finds is not modelled.' \
    "$f" 4 write 80100000h 0300h
expect 0 'Delivered to record 4, endpoint 03:00.0, checked: the root complex reflects it (a completion is never validated).' \
    "$snapshots/fabric-f-18h.acs" 5 completion 03:00.0
expect 0 'Delivered to record 5, endpoint 04:00.0, from the host: access control has no part in what the host sends.' \
    "$f" host write 80100000
lacks 'UNVALIDATED' service "$f" host write 80100000
lacks 'the root complex has not' service "$f" host write 80100000
expect 0 'Delivered to record 4, endpoint 03:00.0, from the host' "$f" host completion 03:00.0 --no-data

expect 0 'unvalidated: the root complex does not reflect it.' "$snapshots/fabric-f-18h.acs" 5 completion 03:00.0 --relaxed

# The other ends.
expect 0 'Reaches the host.' "$off" 4 read 0xFFFFFFFFFFFFFFFF 03:00.0
expect 0 'Violation V at record 2, downstream port 02:00.0, Port 1: Source Validation is on' \
    "$f" 4 read 0x80100000 04:00.0 --at 2
expect 0 "the request's address type is 1 (translation request)" "$f" 4 read 0x80100000 --at 1
expect 0 'Violation X at record 0, root port 00:01.0, Port 0: the snapshot says' \
    "$snapshots/fabric-f-17h-blocking.acs" 4 write 0x80100000
expect 0 'stopped, violation E (P2P Egress Control)' "$snapshots/fabric-f-20h-bit-2.acs" 4 read 80100000
expect 0 'ends in a completer abort' "$snapshots/fabric-f-20h-bit-2.acs" 4 read 0x80100000
# Vectors of 256 bits reach Port Number 255, vectors of 255 do not.
expect 0 'Violation E at record 2, downstream port 02:00.0, Port 1' \
    "$snapshots/fabric-f-20h-full-port-255.acs" 4 read 0x80100000
expect 0 'UNVALIDATED' "$snapshots/fabric-f-20h-ffh-port-255.acs" 4 read 0x80100000
expect 0 'Undefined: the address is below record 0, root port 00:01.0, Port 0, which it entered from below' \
    "$snapshots/fabric-f-07h.acs" 4 read 0x80100000
expect 0 'up by Upstream Forwarding, the address being below this very port' "$f" 4 read 0x80000000
lacks 'covers it itself' service "$f" 4 read 0x80000000
expect 0 'Unclaimed: no root port covers the address' "$f" host read 0x1000
expect 0 'Unclaimed: no port below record 1, upstream port 01:00.0 covers the address' "$f" host read 0x80300000
expect 0 'Unclaimed: record 5, endpoint 04:00.0 has no range with that address' "$f" host read 0x80101000
expect 0 'Unclaimed: nothing stands below record 16' "$snapshots/chassis.acs" host read 0x87000000
expect 0 'Unclaimed: record 4, endpoint 03:00.0 has another ID' "$f" host completion 03:01.0
