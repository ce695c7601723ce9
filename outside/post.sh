#!/bin/sh
# The built program posts files to a real news server, once without and once with a login, and another program's downloader fetches
# them back by the NZB that it wrote.
check=outside/post
. outside/begin
. "$OLDPWD/outside/inn"

# post STATUS LINE PORT FILE TOKEN [WORD..]: the status, and a line on standard error, or that there is none
post() {
    wanted=$1 line=$2 port=$3 file=$4 token=$5
    shift 5
    "$program" post --input "$file" --server "127.0.0.1:$port" --from "me <me@example.org>" --group alt.binaries.test \
        --token "$token" --domain example.org "$@" >"$token.nzb" 2>err
    got=$?
    [ "$got" -eq "$wanted" ] || complain "status $got in place of $wanted: $token: $(head -n 3 err)"
    if [ -n "$line" ]; then
        grep -qxF "$line" err || complain "there is no line '$line': $token"
    else
        [ -s err ] && complain "there is a line on standard error: $token"
    fi
}

start_news_server || exit $status

head -c 3000001 /dev/urandom >random.bin
# Each of these bytes is spelled as a dot, so that each line begins with one.
head -c 400000 /dev/zero | tr '\000' '\004' >dots.bin
: >empty.bin
post 0 '' "$open" random.bin one
post 0 '' "$open" dots.bin two --part-size 100000 --line 997
post 0 '' "$open" empty.bin three
grep -q 'subject="&quot;random.bin&quot; yEnc (1/5)"' one.nzb || complain "the subject isn't there"
[ "$(grep -c '<segment ' one.nzb)" -eq 5 ] || complain "there aren't five segments"

# The server has the articles already, and takes none again.
post 1 'part 5 refused 441' "$open" random.bin one
printf '127.0.0.1:%s usebin secret\n' "$closed" >right
printf '127.0.0.1:%s usebin no\n' "$closed" >wrong
post 8 'usebin: refused 480' "$closed" random.bin four
post 9 'usebin: link over login 481' "$closed" random.bin four --login wrong
grep -q secret err four.nzb && complain "a password was printed"
post 0 '' "$closed" random.bin five --login right
post 5 'usebin: no link' 1 random.bin six

if command -v nzbget >/dev/null 2>&1; then
    fetched one.nzb random.bin "$open"
    fetched two.nzb dots.bin "$open"
    fetched five.nzb random.bin "$closed" usebin secret
    [ "$status" -eq 0 ] && echo "$check: nzbget fetches what was posted"
else
    echo "$check: nzbget isn't installed, fetching is skipped"
fi
exit $status
