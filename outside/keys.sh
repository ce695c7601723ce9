#!/bin/sh
# The keys of each command are the same to the program that reads them, in its help, in the manual page, and in the completions for bash
# and zsh, and those that have to be given are the same in the usage, the synopsis and the explanation of a refusal. What the program reads is asked of it: a key that it knows, without a value behind it, is refused by the number of the value.
check=outside/keys
top=$PWD
. outside/begin

commands='encode decode check post index'

# the keys of a command, one a line, by each of those who tell them
by_help() { "$program" "$1" --help | sed -n 's/^  \(--[a-z-]*\).*/\1/p'; }
by_manual() { awk -v command="$1" '$1 == ".SS" { on = $2 == command } $1 == ".SH" { on = 0 } on && $1 == ".BI" { print $2 }' "$top/docs/usebin.1" |
    sed -n 's/\\-/-/g; s/^\(--[a-z-]*\)\\~$/\1/p'; }
by_bash() { sed -n "s/^ *$1) keys='\\(.*\\)' ;;\$/\\1/p" "$top/completions/usebin.bash" | tr ' ' '\n'; }
by_zsh() { awk -v label="$1)" '$1 == label { on = 1 } on { print } on && $1 == ";;" { exit }' "$top/completions/_usebin" |
    grep -o "'--[a-z-]*\[" | tr -d "'[" | grep -v '^--help$'; }
by_reader() {
    while read -r key; do
        "$program" "$1" "$key" 2>err
        [ "$(head -n 1 err)" = 'usebin: words 3' ] && echo "$key"
    done <all
}

for command in $commands; do
    for teller in help manual bash zsh; do by_$teller $command; done
done | sort -u >all
[ -s all ] || complain "no key is found"

for command in $commands; do
    by_reader $command | sort >reader
    for teller in help manual bash zsh; do
        by_$teller $command | sort >told
        cmp -s told reader || complain "$command: the keys by $teller are: $(tr '\n' ' ' <told)and what is read is: $(tr '\n' ' ' <reader)"
    done
done

# the keys of a command that have to be given, by each who tells them, and by what the program refuses without
needed_by_usage() { "$program" "$1" --help | sed -n '/^usage:/,/^$/p' | sed 's/\[[^]]*\]//g' | grep -o -e '--[a-z-]*'; }
needed_by_explanation() { "$program" "$1" 2>&1 | sed -n 's/^  \(--[a-z-]*\) has to be given$/\1/p'; }
needed_by_synopsis() { awk -v first=".B usebin $1" '$0 == first { on = 1; next } $1 == ".PP" || $1 == ".SH" { on = 0 } on && $1 == ".BI" { print $2 }' \
    "$top/docs/usebin.1" | sed 's/\\-/-/g; s/\\~$//'; }
value() {
    case $1 in
    --input | --nzb | --login) echo none ;;
    --server) echo 127.0.0.1:1 ;;
    --line) echo 64 ;;
    --form) echo file ;;
    *) echo 1 ;;
    esac
}
needed_by_reader() {
    by_reader "$1" >known
    while read -r key; do
        set -- "$1"
        while read -r other; do
            [ "$other" = "$key" ] || set -- "$@" "$other" "$(value "$other")"
        done <known
        "$program" "$@" 2>err
        [ "$(head -n 1 err)" = "usebin: words $(($# + 1))" ] && echo "$key"
    done <known
}

for command in $commands; do
    needed_by_reader $command | sort >reader
    for teller in usage explanation synopsis; do
        needed_by_$teller $command | sort >told
        cmp -s told reader || complain "$command: the keys that have to be given are, by the $teller: $(tr '\n' ' ' <told)and by what is read: $(tr '\n' ' ' <reader)"
    done
done

if command -v groff >/dev/null 2>&1; then
    groff -man -Tutf8 -ww "$top/docs/usebin.1" 2>warnings >/dev/null
    [ -s warnings ] && complain "the manual page has warnings: $(head -n 3 warnings)"
fi
[ "$status" -eq 0 ] && echo "$check: the reader, the help, the manual page and the completions have the same keys, and the same ones have to be given"
exit $status
