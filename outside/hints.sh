#!/bin/sh
# What the built program tells a person below the exact line of a status, and that it can be turned off.
check=outside/hints
top=$PWD
. outside/begin

# told STATUS LINE PART WORD..: the status, the first line on standard error, and a part of what explains it
told() {
    wanted=$1 line=$2 part=$3
    shift 3
    "$program" "$@" >out 2>err
    got=$?
    [ "$got" -eq "$wanted" ] || complain "status $got in place of $wanted: $*"
    [ "$(head -n 1 err)" = "$line" ] || complain "the line isn't '$line': $*"
    grep -qF -- "$part" err || complain "nothing says '$part': $*"
    sed 1d err | grep -qv '^  ' && complain "a line that explains isn't indented: $*"
    USEBIN_HINTS=no "$program" "$@" >out 2>err
    [ "$(cat err)" = "$line" ] || complain "there are more lines with USEBIN_HINTS=no: $*"
}

printf '123456789' >d
"$program" encode --input d >body 2>err
sed '$d' body >cut
sed 's/crc32=c/crc32=d/' body >differs
printf '<nzb><file></nzb>' >nzb
printf '127.0.0.1:1 a\n' >login

told 2 'usebin: words 1' 'no command is given'
told 2 'usebin: words 1' '"encod" is no command' encod
told 2 'usebin: words 2' '--input has to be given' encode
told 2 'usebin: words 2' '"--inptu" is no key of encode' encode --inptu d
told 2 'usebin: words 4' '"--input" is given twice' encode --input d --input d
told 2 'usebin: words 3' '--input has no value behind it' encode --input
told 2 'usebin: words 5' '--line can'"'"'t be "12"' encode --input d --line 12
told 2 'usebin: words 5' '64 to 997. Without it 128.' encode --input d --line 12
told 3 'usebin: input fault' 'none: ' encode --input none
told 3 'usebin: input fault' 'none: ' check --nzb none
told 5 'usebin: no link' '127.0.0.1:1: ' index --server 127.0.0.1:1 --group a --first 1 --last 1
told 6 'usebin: line 3 column 1 NoEnd' 'the text ends before `=yend`: the article was cut short' decode --input cut
# the README shows the last one
"$program" decode --input cut >out 2>err
while IFS= read -r line; do
    grep -qxF -- "    $line" "$top/README.md" || complain "README.md doesn't show: $line"
done <err
told 6 'usebin: line 3 column 1 CrcDiffers dbf43926 cbf43926' 'the article was damaged on its way' decode --input differs
told 6 'usebin: reply NoReply' 'a status line' decode --form wire --input body
told 6 'usebin: place 11 WrongTag' 'an NZB has no such element there' check --nzb nzb
told 6 'usebin: limit part 1' 'only so many parts' encode --input d --part 2
told 6 'usebin: login 1' 'HOST:PORT USER PASSWORD' index --server 127.0.0.1:1 --group a --first 1 --last 1 --login login

# each reason of a fault has a sentence
for reason in NoBegin BadBegin PartRange NoPart BadPart Stray LoneEscape TooMany Keyword NoEnd BadEnd EndPart EndSize TooFew CrcDiffers; do
    case $reason in
    NoBegin) printf 'hello\n' ;;
    BadBegin) printf '=ybegin line=128 size=x name=d\n' ;;
    PartRange) printf '=ybegin line=128 size=16777217 name=d\n' ;;
    NoPart) printf '=ybegin part=1 line=128 size=9 name=d\nx\n' ;;
    BadPart) printf '=ybegin part=1 line=128 size=9 name=d\n=ypart begin=x end=9\n' ;;
    Stray) printf '=ybegin line=128 size=9 name=d\na\000b\n' ;;
    LoneEscape) printf '=ybegin line=128 size=9 name=d\na=\n' ;;
    TooMany) printf '=ybegin line=128 size=1 name=d\naa\n' ;;
    Keyword) printf '=ybegin line=128 size=9 name=d\n=ybegin line=128 size=9 name=d\n' ;;
    NoEnd) printf '=ybegin line=128 size=1 name=d\na\n' ;;
    BadEnd) printf '=ybegin line=128 size=1 name=d\na\n=yend size=x\n' ;;
    EndPart) printf '=ybegin part=1 line=128 size=1 name=d\n=ypart begin=1 end=1\na\n=yend size=1 part=2\n' ;;
    EndSize) printf '=ybegin line=128 size=1 name=d\na\n=yend size=2\n' ;;
    TooFew) printf '=ybegin line=128 size=2 name=d\na\n=yend size=2\n' ;;
    CrcDiffers) printf '=ybegin line=128 size=1 name=d\na\n=yend size=1 crc32=0\n' ;;
    esac >text
    "$program" decode --input text >out 2>err
    [ $? -eq 6 ] || complain "status for $reason"
    head -n 1 err | grep -q " $reason\( \|\$\)" || complain "another fault than $reason: $(head -n 1 err)"
    [ "$(wc -l <err)" -eq 2 ] || complain "$reason isn't explained: $(cat err)"
done

# a full device, and a reader that goes away
if [ -w /dev/full ]; then
    "$program" encode --input d >/dev/full 2>err
    [ $? -eq 4 ] || complain "a full device isn't status 4"
    grep -qF '  standard output: ' err || complain "a full device isn't explained"
fi
head -c 3000000 /dev/urandom >long
{ "$program" encode --input long 2>err; echo $? >got; } | head -n 1 >out
[ "$(cat got)" -eq 4 ] || complain "a closed pipe is status $(cat got) in place of 4"
[ "$(head -n 1 err)" = 'usebin: output fault' ] || complain "another line for a closed pipe: $(head -n 1 err)"
sed 1d err | grep -qv '^  ' && complain "there is noise behind a closed pipe: $(cat err)"

# want of memory
(ulimit -v 60000 && "$program" encode --input long >out 2>err
got=$?
[ "$got" -eq 0 ] && exit 0
[ "$got" -eq 7 ] && [ "$(head -n 1 err)" = 'usebin: no memory' ] && grep -q '^  the process may have 61440000 bytes' err) ||
    complain "want of memory isn't explained: $(cat err)"

[ "$status" -eq 0 ] && echo "$check: each status is explained"
exit $status
