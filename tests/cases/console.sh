# Lines that come faster than they are read. What is kept of them was worked out by hand.

# 409 lines of ten bytes with their ends come to 4,090 bytes. One of seven bytes doesn't fit then, one of six does, and no further one.
shows 'of 5,014 bytes of lines that come at once, 4,096 are kept'
lines=
outcomes=
count=0
while [ "$count" -lt 500 ]; do
    lines="${lines}123456789\\n"
    [ "$count" -ge 409 ] || outcomes="${outcomes}value = 123456789 = 0x75bcd15\\n-> "
    count=$((count + 1))
done
lines="${lines}123456\\n12345\\n\\n"
console "$lines"
ticks 'rx 0 4096\nrx 0 918\n'
plays
ends 0 "$lines-> ${outcomes}value = 12345 = 0x3039\\n-> " ''

# 220 lines of 48 bytes with their ends, twenty at a time: more than twice the 4,096 bytes for which there is room.
shows 'lines that come for long are read in their order'
lines=
written=
events=
count=0
while [ "$count" -lt 220 ]; do
    echoed=
    outcomes=
    events="${events}rx $((count * 100)) 960\\n"
    for _ in 1 2 3 4 5 6 7 8 9 10 11 12 13 14 15 16 17 18 19 20; do
        count=$((count + 1))
        line=$(printf '%47d' $((1000 + count)))
        echoed="$echoed$line\\n"
        outcomes="${outcomes}value = $((1000 + count)) = 0x$(printf %x $((1000 + count)))\\n-> "
    done
    lines="$lines$echoed"
    [ "$written" ] && written="$written$echoed$outcomes" || written="$echoed-> $outcomes"
done
console "$lines"
ticks "$events"
plays
ends 0 "$written" ''

shows 'a long line is cut after 255 bytes, and an interrupt drops the lines that are kept'
console "$(printf '%298s' '')12\\n1\\n2\\n\\0003$(printf '%250s' '')12345\\n"
ticks 'rx 0 600\n'
plays
ends 0 "$(printf '%255s' '')\\n1\\n2\\n\\n$(printf '%250s' '')12345\\n-> value = 12345 = 0x3039\\n-> " ''
