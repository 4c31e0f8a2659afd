# bash completion for gqlsdl, written by tools/completions
_gqlsdl() {
    local word=${COMP_WORDS[COMP_CWORD]} before=${COMP_WORDS[COMP_CWORD-1]}
    case $before in
        --indent|--sample) COMPREPLY=(); return ;;
    esac
    COMPREPLY=($(compgen -W "--sorted-fields --sorted-arguments --sorted-enum-items --single-line --indent --sample" -- "$word"))
}
complete -F _gqlsdl gqlsdl
