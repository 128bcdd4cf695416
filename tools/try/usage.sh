# The command line: what is asked wrongly, and files that can't be read.

expect 2 'usage: service'
expect 0 'usage: service' --help
expect 0 '--exit-by-outcome an answered query gives instead' --help
expect 0 '10  delivered unvalidated' --help
expect 0 'service of acs 0.' --version
expect 2 'cannot open the snapshot: No such file' "$folder/missing"
expect 2 'cannot read the snapshot: Is a directory' "$folder"
expect 2 'cannot open the snapshot' ''
expect 2 'no such option' --what "$f"
expect 2 'a snapshot'\''s file is missing' --now 5
expect 2 'a query has an origin' "$f" 4
expect 2 'the origin is host, a record' "$f" four write 0x0 03:00.0
expect 2 'the origin is host, a record' "$f" 65536 write 0x0 03:00.0
expect 2 'the origin is host, a record' "$f" -1 write 0x0 03:00.0
expect 2 'write an origin'\''s ID as' "$f" 03:20.0 write 0x0
expect 2 'no record with the ID 07:00.0' "$f" 07:00.0 write 0x0
expect 2 'read, write or completion' "$f" 4 message 0x0 03:00.0
expect 2 'a request has an address' "$f" 4 write
expect 2 'one word too many' "$f" 4 write 0x0 03:00.0 5
expect 2 'an ID and nothing more' "$f" 5 completion 03:00.0 5
expect 2 'an ID and nothing more' "$f" 5 completion
expect 2 'write an address as' "$f" 4 write 0x 03:00.0
expect 2 'write an address as' "$f" 4 write h 03:00.0
expect 2 'write an address as' "$f" 4 write 8010000g 03:00.0
expect 2 'write an address as' "$f" 4 write 0x10000000000000000 03:00.0
expect 2 'write a requester as' "$f" 4 write 0x0 03:00
expect 2 'write a requester as' "$f" 4 write 0x0 03:20.0
expect 2 'write a requester as' "$f" 4 write 0x0 03:00.8
expect 2 'write a requester as' "$f" 4 write 0x0 100:00.0
expect 2 'write a requester as' "$f" 4 write 0x0 1:2:03:00.0
expect 2 'write a requester as' "$f" 4 write 0x0 :03:00.0
expect 2 'write a requester as' "$f" 4 write 0x0 0x10000
expect 2 'write a requester as' "$f" 4 write 0x0 10000
expect 2 'write an ID as' "$f" 5 completion card
expect 2 '--at takes' "$f" 4 write 0x0 03:00.0 --at 4
expect 2 '--length takes' "$f" 4 write 0x0 03:00.0 --length 0
expect 2 '--length takes' "$f" 4 write 0x0 03:00.0 --length 1025
expect 2 '--room takes' "$f" 4 write 0x0 03:00.0 --room 1029
expect 2 '--now takes' "$f" --now
expect 2 '--now takes' "$f" --now -5
expect 2 '--now takes' "$f" --now 18446744073709551616
expect 2 'only for read and write' "$f" 5 completion 03:00.0 --at 1
expect 2 'only for read and write' "$f" --length 1
expect 2 'only for completion' "$f" 4 write 0x0 03:00.0 --relaxed
expect 2 'only for completion' "$f" 4 write 0x0 03:00.0 --no-data
expect 2 'only for a query' "$f" --room 8
expect 2 'only for a query' "$f" --for-acsroute
