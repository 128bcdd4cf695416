# What people have: IDs and addresses in the forms in which other tools print them,
# the requester left out, an exit status for each outcome, the input of acsroute.

for address in 80100000 0x80100000 0X80100000 80100000h 80100000H 0080100000; do
    expect 0 'in one line  delivered 5 checked 2:2 0:5 0:6 3:6 5:7' "$f" 4 write $address
done
for origin in 4 03:00.0 0000:03:00.0 3:0.0 03:0.0; do
    expect 0 'From record 4, endpoint 03:00.0: write' "$f" $origin write 80100000
done
for requester in 03:00.0 0000:03:00.0 0300 300 0x300 0300h; do
    expect 0 'requester 03:00.0 (its own ID)' "$f" 4 write 80100000 $requester
done
expect 0 'completion with data to 03:00.0' "$f" 5 completion 0000:03:00.0
expect 0 'completion with data to 03:00.0' "$f" 04:00.0 completion 300
# The requester, if not said.
expect 0 'requester 04:00.0 (its own ID)' "$f" 5 read 80000000
expect 0 'requester 04:00.0 (NOT its own ID)' "$f" 4 read 80000000 04:00.0
expect 0 'requester 00:00.0, address type 0' "$f" host read 80000000
# A port is found by its ID too, but it can't send.
expect 1 'Refused (5): record 2, downstream port 02:00.0, Port 1 cannot send' "$f" 02:00.0 read 0
# A domain isn't in a snapshot.
expect 0 'whether it was taken of domain 0001' "$f" 0001:03:00.0 write 80100000
lacks 'domain' service "$f" 0000:03:00.0 write 80100000

# An exit status for each kind.
expect 10 'UNVALIDATED' --exit-by-outcome "$off" 4 write 80100000
expect 11 'checked' --exit-by-outcome "$f" 4 write 80100000
expect 12 'Reaches the host' --exit-by-outcome "$f" 4 write 1000
expect 13 'Unclaimed' --exit-by-outcome "$f" 4 write 80300000
expect 14 'Undefined' --exit-by-outcome "$snapshots/fabric-f-07h.acs" 4 write 80100000
expect 15 'Violation' --exit-by-outcome "$snapshots/fabric-f-17h-blocking.acs" 4 write 80100000
expect 1 'Refused (3)' --exit-by-outcome "$snapshots/expired.acs" 4 write 80100000
expect 1 'Refused (5)' --exit-by-outcome "$f" 2 write 80100000
expect 0 'accepted' --exit-by-outcome "$f"

# The input of acsroute: lengths, snapshot, time 1, origin and header.
{
    printf '\170\003'
    cat "$f"
    printf '\001\000\000\000\000\000\000\000\004\000\014'
    printf '\100\000\000\001\003\000\000\017\200\020\000\000'
} > "$folder/wanted"
service "$f" 4 write 80100000 --now 1 --for-acsroute > "$folder/got"
says 0 '' cmp "$folder/wanted" "$folder/got"
# Where acsroute is built, it has to answer as the service does.
if [ -x crates/acsroute/out/acsroute ]; then
    feed() { service "$@" --now 2000000000 --for-acsroute | $run crates/acsroute/out/acsroute; }
    says 0 'delivered 5 checked 2:2 0:5 0:6 3:6 5:7' feed "$f" 4 write 80100000
    says 0 'delivered 4 unvalidated 3:4 2:6 4:7' feed "$snapshots/fabric-f-18h.acs" 5 \
        completion 03:00.0 --relaxed
    says 0 'refusal 4 5' feed "$snapshots/faulty-record.acs" 4 write 80100000
fi
