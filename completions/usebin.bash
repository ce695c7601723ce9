# Completion of usebin's words for bash.
_usebin() {
    local word=${COMP_WORDS[COMP_CWORD]} before=${COMP_WORDS[COMP_CWORD-1]} keys
    COMPREPLY=()
    if [ "$COMP_CWORD" -eq 1 ]; then
        mapfile -t COMPREPLY < <(compgen -W 'encode decode check post index --help --version' -- "$word")
        return
    fi
    case ${COMP_WORDS[1]} in
    encode) keys='--input --name --line --part-size --part' ;;
    decode) keys='--input --form' ;;
    check) keys='--nzb' ;;
    post) keys='--input --server --from --group --token --domain --name --comment --line --part-size --patience --login' ;;
    index) keys='--server --group --first --last --patience --login' ;;
    *) return ;;
    esac
    if [ $((COMP_CWORD % 2)) -eq 0 ]; then
        [ "$COMP_CWORD" -eq 2 ] && keys="$keys --help"
        local key left=
        for key in $keys; do
            [[ " ${COMP_WORDS[*]:2:COMP_CWORD-2} " == *" $key "* ]] || left="$left $key"
        done
        mapfile -t COMPREPLY < <(compgen -W "$left" -- "$word")
        return
    fi
    case $before in
    --input | --nzb | --login) mapfile -t COMPREPLY < <(compgen -f -- "$word") ;;
    --form) mapfile -t COMPREPLY < <(compgen -W 'file wire' -- "$word") ;;
    esac
}
complete -o filenames -F _usebin usebin
