#!/bin/sh
# The built program on NZB texts, its statuses and their lines, and what it takes and refuses beside xmllint, another program's
# reader of XML.
check=outside/check
. outside/begin

# expect STATUS LINE FILE: the status, and the first line on standard error
expect() {
    "$program" check --nzb "$3" >out 2>err
    got=$?
    [ "$got" -eq "$1" ] || complain "status $got in place of $1: $3"
    [ "$(head -n 1 err)" = "$2" ] || complain "the line isn't '$2': $3"
}

# text FILES SEGMENTS: an NZB of so many files with so many segments each
text() {
    awk -v files="$1" -v segments="$2" 'BEGIN {
        print "<?xml version=\"1.0\" encoding=\"UTF-8\"?>"
        print "<!DOCTYPE nzb PUBLIC \"-//newzBin//DTD NZB 1.1//EN\" \"http://www.newzbin.com/DTD/nzb/nzb-1.1.dtd\">"
        print "<!-- made by a check -->\n<nzb xmlns=\"http://www.newzbin.com/DTD/2003/nzb\">"
        print "<head>\n<meta type=\"category\">A &amp; B</meta>\n</head>"
        for (f = 1; f <= files; f++) {
            print "<file poster=\"A &lt;a@example.org&gt;\" date=\"1071674882\" subject=\"&quot;x" f "&quot; yEnc (1/" segments ")\">"
            print "<groups>\n<group>alt.binaries.test</group>\n</groups>\n<segments>"
            for (s = 1; s <= segments; s++) print "<segment bytes=\"" s "\" number=\"" s "\">" f "." s "@example.org</segment>"
            print "</segments>\n</file>"
        }
        print "</nzb>"
    }'
}

text 3 40 >good
expect 0 '' good
printf 'files 3\nsegments 120\nbytes 2460\n' >wanted
cmp -s out wanted || complain "other counts"
printf '<nzb><file></nzb>' >text && expect 6 'usebin: place 11 WrongTag' text
printf '<nzb>' >text && expect 6 'usebin: place 5 Ended' text
printf '<!DOCTYPE nzb [' >text && expect 6 'usebin: place 14 Subset' text
text 10000 0 >text && expect 6 'usebin: limit files 9999' text
text 1 262145 >text && expect 6 'usebin: limit segments 262144' text
text 1 262144 >text && expect 0 '' text
truncate -s 67108865 text && expect 6 'usebin: limit text 67108864' text
expect 3 'usebin: input fault' none

if command -v xmllint >/dev/null 2>&1; then
    xmllint --noout good 2>/dev/null || complain "xmllint refuses what is taken"
    size=$(wc -c <good)
    at=1
    while [ "$at" -lt "$((size - 1))" ]; do
        head -c "$at" good >text
        "$program" check --nzb text >out 2>err
        [ $? -eq 6 ] || complain "the first $at bytes are taken"
        xmllint --noout text 2>/dev/null && complain "xmllint takes the first $at bytes"
        at=$((at + 97))
    done
    echo "outside/check: xmllint agrees"
else
    echo "outside/check: xmllint isn't installed, comparing is skipped"
fi
exit $status
