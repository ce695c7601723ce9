#!/bin/sh
# The limits that texts tell are those of crates/limits: each count of bytes, parts, files or segments of four digits or more, what the keys
# of a line's length, of patience and of an article's number take, and each line of a limit, in what a person reads and in the comments of code and
# definitions. The program isn't needed.
check=outside/limits
status=0

complain() {
    echo "$check: $1"
    status=1
}

limits=$(sed -n 's/^pub const [A-Z_]*: [a-z0-9]* = \([0-9_]*\);$/\1/p' crates/limits/src/lib.rt | tr -d _)
[ "$(echo "$limits" | wc -l)" -eq "$(grep -c '^pub const' crates/limits/src/lib.rt)" ] || complain "a limit isn't read in crates/limits"

# no limits of this project: the longest line of an overview, and the room of the one-pass decoder
others=4096

# the numbers that a text tells as limits
told() {
    sed -e ':again' -e 's/\([0-9]\),\([0-9][0-9][0-9]\)/\1\2/g' -e 'tagain' "$1" |
        grep -oE '[0-9]{4,} (bytes|parts|files|segments)|a part has, 1 to [0-9]+|(full|given up|first number), [0-9]+ to [0-9]+|limit (file|segments|text|files|login) [0-9]+' |
        grep -oE '[0-9]+( bytes| parts| files| segments|)$' | grep -oE '[0-9]+' | sort -u
}

for text in README.md docs/FORMATS.md docs/usebin.1 crates/*/src/*.rt crates/*/specs/*.antt; do
    case $text in crates/*_rows/* | crates/limits/*) continue ;; esac
    for number in $(told "$text"); do
        echo "$limits" "$others" | tr ' ' '\n' | grep -qx "$number" || complain "$text tells a limit of $number"
    done
done

# where nothing is found, the limits are told in other words than are looked for here
for text in docs/FORMATS.md docs/usebin.1 crates/usebin/src/help.rt; do
    [ -n "$(told "$text")" ] || complain "$text tells no limit"
done
[ "$status" -eq 0 ] && echo "$check: the texts tell the limits that stand in crates/limits"
exit $status
