# Completions of termimad-view for bash: the command, and a skin behind its other words.
_termimad_view() {
    local word=${COMP_WORDS[COMP_CWORD]} numbers skins
    if [ "$COMP_CWORD" -eq 1 ]; then
        mapfile -t COMPREPLY < <(compgen -W "markdown markdown-stream live-markdown code text stream live inline area --help --version" -- "$word")
        return
    fi
    case ${COMP_WORDS[1]} in
    -*) return ;;
    inline) numbers=0 ;;
    area) numbers=4 ;;
    live | live-markdown | code) numbers=2 ;;
    *) numbers=1 ;;
    esac
    skins="default dark light"
    [[ ${COMP_WORDS[1]} != *markdown* && ${COMP_WORDS[1]} != code ]] || skins="$skins sixteen none"
    [ "$COMP_CWORD" -ne $((numbers + 2)) ] || mapfile -t COMPREPLY < <(compgen -W "$skins" -- "$word")
}
complete -F _termimad_view termimad-view
