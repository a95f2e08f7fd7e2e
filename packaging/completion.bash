# The arguments of blkcache, for bash; install puts it into PREFIX/share/bash-completion/completions.
_blkcache() {
    local word=${COMP_WORDS[COMP_CWORD]} before=${COMP_WORDS[COMP_CWORD - 1]} words=
    case $COMP_CWORD:${COMP_WORDS[1]} in
        1:* | 3:--wait)
            [ "$COMP_CWORD" = 3 ] || words='--help --version --program --prove --wait'
            mapfile -t COMPREPLY < <(compgen -W "$words" -- "$word"; compgen -d -- "$word")
            return
            ;;
    esac
    case $before in
        inspect) words='index file address list chain entry' ;;
        reset) words=--yes ;;
        get | put | doom | trim | gen | file | address | chain | entry | --max | --items | --wait) ;;
        *) words='session count list get put doom trim inspect verify gen reset --max --items' ;;
    esac
    mapfile -t COMPREPLY < <(compgen -W "$words" -- "$word")
}
complete -o filenames -F _blkcache blkcache ./blkcache
