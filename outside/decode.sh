#!/bin/sh
# The built program's `decode` on what `encode` wrote, on damaged texts, and on bodies that uuenview made, another program's
# encoder.
check=outside/decode
. outside/begin

# back FILE LINE: the text in `saved` is decoded to FILE, and tells LINE
back() {
    "$program" decode --input saved >out 2>err
    got=$?
    [ "$got" -eq 0 ] || complain "status $got in place of 0: $1"
    cmp -s out "$1" || complain "decoded to other bytes than $1"
    [ "$(cat err)" = "$2" ] || complain "the line isn't '$2': $1"
}

# refused LINE: the text in `saved` is refused so, and nothing is written
refused() {
    "$program" decode --input saved >out 2>err
    got=$?
    [ "$got" -eq 6 ] || complain "status $got in place of 6: $1"
    [ "$(head -n 1 err)" = "$1" ] || complain "the line isn't '$1'"
    [ ! -s out ] || complain "bytes of a refused text: $1"
}

head -c 300000 /dev/urandom >file
: >empty
"$program" encode --input file >saved && back file 'range 1-300000 of 300000'
"$program" encode --input empty >saved && back empty 'range 1-0 of 0'
"$program" encode --input file --part-size 50000 --part 4 >part
tail -c 150000 file | head -c 50000 >fourth
cp part saved && back fourth 'range 150001-200000 of 300000'
sed '$d' part >saved && refused "usebin: line $(wc -l <part) column 1 NoEnd"
sed 's/^=yend size=50000/=yend size=50001/' part >saved && refused "usebin: line $(wc -l <part) column 1 EndSize 50001 50000"
printf 'hello\n' >saved && refused 'usebin: line 2 column 1 NoBegin'

# off the wire: a status line, and the lines of the block with doubled dots
{ printf '222 0 <a@b>\r\n'; LC_ALL=C sed 's/^\./../' part; printf '.\r\n'; } >reply
"$program" decode --form wire --input reply >out 2>err || complain "a reply is refused: $(cat err)"
cmp -s out fourth || complain "a reply gives other bytes"
printf '430 none\r\n' >reply
"$program" decode --form wire --input reply >out 2>err
[ $? -eq 6 ] && [ "$(head -n 1 err)" = 'usebin: reply Code 430' ] || complain "another answer for a reply without a body"

# theirs NAME LINES: uuenview's bodies of a file, of so many lines each, are decoded and put together
theirs() {
    rm -f ./*.00* ./*.01*
    uuenview -y "-$2" -o "$1" >/dev/null 2>&1
    : >whole
    for body in "$1".0* "${1%.bin}".0*; do
        [ -f "$body" ] || continue
        { printf 'From: a@example.org\nSubject: %s\n\n' "$1"; cat "$body"; } >saved
        "$program" decode --input saved >>whole 2>err || complain "a body of uuenview is refused: $1: $(cat err)"
        bodies=$((bodies + 1))
    done
    cmp -s whole "$1" || complain "the bodies of uuenview give other bytes: $1"
}

if command -v uuenview >/dev/null 2>&1; then
    printf 'a' >small.bin
    awk 'BEGIN { for (i = 0; i < 3000; i++) printf "\326\340\343\023\004\366\337" }' >critical.bin
    mv file large.bin
    bodies=0
    for name in small.bin critical.bin large.bin; do
        theirs "$name" 100000
    done
    [ "$bodies" -eq 3 ] || complain "uuenview made $bodies bodies in place of 3"
    theirs critical.bin 50
    theirs large.bin 1000
    [ "$bodies" -gt 5 ] || complain "uuenview made no file in several parts"
    echo "outside/decode: bodies of uuenview read"
else
    echo "outside/decode: uuenview isn't installed, its bodies are skipped"
fi

# An encoder writes the data lines of the empty file too: python3-yenc's, between a header and a trailer.
if /usr/bin/python3 -c 'import _yenc' 2>/dev/null; then
    for name in empty large.bin; do
        [ -f "$name" ] || continue
        /usr/bin/python3 -c 'import _yenc, sys; _yenc.encode(open(sys.argv[1], "rb"), open("data", "wb"), 0)' "$name" >/dev/null 2>&1
        size=$(wc -c <"$name")
        { printf '=ybegin line=128 size=%s name=x\r\n' "$size"; cat data; [ -s data ] && printf '\r\n'; printf '=yend size=%s\r\n' "$size"; } >saved
        "$program" decode --input saved >out 2>err || complain "a body of python3-yenc is refused: $name: $(cat err)"
        cmp -s out "$name" || complain "a body of python3-yenc gives other bytes: $name"
    done
    echo "outside/decode: bodies of python3-yenc read"
else
    echo "outside/decode: python3-yenc isn't installed, its bodies are skipped"
fi
exit $status
