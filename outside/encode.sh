#!/bin/sh
# The built program on worked cases, its statuses and their lines, and what it writes read back by uudeview, another
# program's decoder.
check=outside/encode
. outside/begin

# expect STATUS LINE WORD ..: the status, and the first line on standard error
expect() {
    wanted=$1
    line=$2
    shift 2
    "$program" "$@" >out 2>err
    got=$?
    [ "$got" -eq "$wanted" ] || complain "status $got in place of $wanted: $*"
    [ "$(head -n 1 err)" = "$line" ] || complain "the line isn't '$line': $*"
}

# text NAME CONTENT LINE ..: the text of a file, each line ended by CR LF (CONTENT and the lines by printf's escapes)
text() {
    name=$1
    printf "$2" >"$name"
    shift 2
    for line in "$@"; do printf "$line\r\n"; done >wanted
    expect 0 '' encode --input "$name"
    cmp -s out wanted || complain "another text of $name"
}

text e '' '=ybegin line=128 size=0 name=e' '=yend size=0 crc32=00000000'
text d '123456789' '=ybegin line=128 size=9 name=d' '[\\]^_`abc' '=yend size=9 crc32=cbf43926'
text four '\326\340\343\023' '=ybegin line=128 size=4 name=four' '=@=J=M=}' '=yend size=4 crc32=7a740808'
text dot '\004' '=ybegin line=128 size=1 name=dot' '.' '=yend size=1 crc32=d56f2b94'
text space '\366' '=ybegin line=128 size=1 name=space' '=`' '=yend size=1 crc32=86dcb8a4'

expect 0 '' --help
expect 0 '' encode --help
expect 0 '' decode --help
expect 0 '' --version
expect 2 'usebin: words 1'
expect 2 'usebin: words 3' encode --input
expect 2 'usebin: words 4' encode --input d --input d
expect 2 'usebin: words 1' none "$(printf '\377')"
expect 2 'usebin: words 3' encode --input "$(printf '\377')"
expect 3 'usebin: input fault' encode --input none
expect 3 'usebin: input fault' encode --input .
mkfifo pipe && expect 3 'usebin: input fault' encode --input pipe
[ -r /proc/version ] && expect 3 'usebin: input fault' encode --input /proc/version
truncate -s 1099511627777 long 2>/dev/null && expect 6 'usebin: limit file 1099511627776' encode --input long
head -c 262145 /dev/zero >many
expect 6 'usebin: limit segments 262144' encode --input many --part-size 1
expect 6 'usebin: limit part 1' encode --input many --part 2
expect 2 'usebin: words 5' encode --input many/ --line "$(printf '\377')" --name many
"$program" encode --input d >/dev/full 2>err
[ $? -eq 4 ] && [ "$(head -n 1 err)" = 'usebin: output fault' ] || complain "a full device is no output fault"

# Files to be read back: no byte, a few, those that are escaped or look like lines of their own, and large ones.
: >none.bin
printf 'a' >one.bin
head -c 2000 /dev/urandom >small.bin
awk 'BEGIN { for (i = 0; i < 3000; i++) printf "\326\340\343\023\004\366\337" }' >critical.bin
head -c 3000000 /dev/urandom >'my file.bin'
head -c 1000000 /dev/zero >zeros.bin

# back NAME: the text or texts in text* are decoded to the file of this name
back() {
    rm -rf back && mkdir back
    uudeview -i -q -p back/ text* >/dev/null 2>&1
    cmp -s "$1" "back/$1" || complain "uudeview read other bytes of $1 from $(ls text* | wc -l) texts"
}

if command -v uudeview >/dev/null 2>&1; then
    for name in small.bin critical.bin 'my file.bin' zeros.bin; do
        rm -f text*
        expect 0 '' encode --input "$name"
        mv out text
        back "$name"
    done
    for name in critical.bin 'my file.bin' zeros.bin; do
        rm -f text*
        size=$(wc -c <"$name")
        part=1
        while [ "$part" -le 5 ]; do
            expect 0 '' encode --input "$name" --part-size $(((size + 4) / 5)) --part "$part"
            { printf 'From: a@example.org\nSubject: "%s" yEnc (%s/5)\n\n' "$name" "$part"; cat out; } >"text$part"
            part=$((part + 1))
        done
        back "$name"
    done
    echo "outside/encode: read back by uudeview"
else
    echo "outside/encode: uudeview isn't installed, reading back is skipped"
fi

# Files of no byte and of one, in the short texts of which uudeview sees none, are read back by the decoder of python3-yenc.
if /usr/bin/python3 -c 'import _yenc' 2>/dev/null; then
    for name in none.bin one.bin small.bin critical.bin; do
        expect 0 '' encode --input "$name"
        sed '1d; $d' out >data
        /usr/bin/python3 -c 'import _yenc; _yenc.decode(open("data", "rb"), open("back.bin", "wb"), 0)' >/dev/null 2>&1
        cmp -s "$name" back.bin || complain "python3-yenc read other bytes of $name"
    done
    echo "outside/encode: read back by python3-yenc"
else
    echo "outside/encode: python3-yenc isn't installed, reading back is skipped"
fi
exit $status
