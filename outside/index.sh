#!/bin/sh
# Articles that another program posted to a real news server are indexed by the built program, and another program's downloader
# fetches the files by the NZB that it wrote.
check=outside/index
. outside/begin
. "$OLDPWD/outside/inn"

command -v uuenview >/dev/null 2>&1 || { echo "$check: uuenview isn't installed, indexing its posts is skipped"; exit 0; }

# posted FILE LINES: uuenview posts a file in parts of so many lines of 128 characters, each by the server's own inews
posted() {
    NNTPSERVER=127.0.0.1 INNCONF="$server/etc/inn.conf" INEWS="$inn/inews -h -O -S -p $open" \
        uuenview -y "-$2" -p alt.binaries.test -f theirs@example.org -s "from another program" "$1" >uuenview.log 2>&1 ||
        complain "uuenview doesn't post $1"
}

# index STATUS LINE NZB WORD..: the status, and a line on standard error
index() {
    wanted=$1 line=$2 nzb=$3
    shift 3
    "$program" index --group alt.binaries.test --first 1 --last 10000000 "$@" >"$nzb" 2>err
    got=$?
    [ "$got" -eq "$wanted" ] || complain "status $got in place of $wanted: $nzb: $(head -n 3 err)"
    grep -qxF "$line" err || complain "there is no line '$line': $nzb: $(head -n 3 err)"
}

start_news_server || exit $status

head -c 1000001 /dev/urandom >random.bin
head -c 70000 /dev/zero | tr '\000' '\004' >dots.bin
posted random.bin 2000
posted dots.bin 100
"$program" post --input random.bin --server "127.0.0.1:$open" --from me@example.org --group alt.binaries.test --token ours \
    --domain example.org --part-size 200000 --name ours.bin >/dev/null 2>err || complain "the built program doesn't post"
mv random.bin theirs.bin && cp theirs.bin random.bin && mv theirs.bin ours.bin

index 0 'skipped 0' all.nzb --server "127.0.0.1:$open"
[ "$(grep -c '<file ' all.nzb)" -eq 3 ] || complain "there aren't three files: $(grep -c '<file ' all.nzb)"
grep -q '<segment bytes="[1-9][0-9]*" number="1">ours.1of6@example.org</segment>' all.nzb || complain "our own article isn't listed"
"$program" check --nzb all.nzb >counts 2>&1 || complain "check refuses the NZB: $(cat counts)"
index 8 'usebin: refused 480' none.nzb --server "127.0.0.1:$closed"
printf '127.0.0.1:%s usebin secret\n' "$closed" >right
index 0 'skipped 0' login.nzb --server "127.0.0.1:$closed" --login right
cmp -s all.nzb login.nzb || complain "the NZB isn't the same with a login"

if command -v nzbget >/dev/null 2>&1; then
    fetched all.nzb random.bin "$open"
    fetched all.nzb dots.bin "$open"
    fetched all.nzb ours.bin "$open"
    [ "$status" -eq 0 ] && echo "$check: nzbget fetches what was indexed"
else
    echo "$check: nzbget isn't installed, fetching is skipped"
fi
exit $status
