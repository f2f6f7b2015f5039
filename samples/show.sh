#!/bin/sh
# What `make run` shows: a record read by name, the same record with its members moved, a damaged one refused with its byte marked,
# time stamps with the time between them, a Boolean whose byte is neither 00 nor 01, and a blank book.
# It runs the command kerbcanopy that stands on the path, from the repository's root.
set -u

say() {
    printf '\n%s\n' "$*"
}

# Exit status 1 and 3 are answers, refused and not equal; only trouble stops the showing.
run() {
    printf '> kerbcanopy %s\n' "$*"
    kerbcanopy "$@" 2>&1
    case $? in
        0 | 1 | 3) ;;
        *) exit 1 ;;
    esac
}

say "A rig's descriptor, and a record under it:"
run check samples/rig.hex
run dump samples/rig.hex samples/data/rig.hex

say "A reader asks for the identifier by name and type:"
run read samples/rig.hex samples/reader.hex samples/data/rig.hex

say "The same record with its members moved gives the same bytes:"
run read samples/rig-before.hex samples/reader.hex samples/data/rig-before.hex

say "So does a rig that sets the reserved bytes:"
run compare samples/rig.hex samples/rig-reserved.hex
run read samples/rig-reserved.hex samples/reader.hex samples/data/rig.hex

say "A record that was cut gives nothing. It is refused, and its byte is marked:"
run read samples/rig.hex samples/reader.hex samples/data/rig-cut.hex

say "A record with time stamps, and the time between them:"
run dump samples/coat.hex samples/data/coat.hex
run difference samples/coat.hex samples/data/coat.hex end start

say "A rig that sends FF for true. It is true, and a reader gets the byte as it came:"
run dump samples/lamp.hex samples/data/lamp.hex
run read samples/lamp.hex samples/reader-lit.hex samples/data/lamp.hex

say "A book of records, in which no blank is filed over another:"
rm -f target/run.book
run book new target/run.book --capacity 4 --bytes 160
run book add target/run.book samples/plating.hex samples/data/plating.hex
run book add target/run.book samples/plating.hex samples/data/plating-fourteen.hex
run book add target/run.book samples/plating.hex samples/data/plating.hex
run book list target/run.book
rm -f target/run.book
