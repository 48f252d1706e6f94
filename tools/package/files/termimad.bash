# Completions of termimad for bash.
_termimad() {
    local word=${COMP_WORDS[COMP_CWORD]}
    case ${COMP_WORDS[COMP_CWORD - 1]} in
    --skin) mapfile -t COMPREPLY < <(compgen -W "auto dark light sixteen none" -- "$word"; compgen -f -X "!*.json" -- "$word") ;;
    --links) mapfile -t COMPREPLY < <(compgen -W "auto always never" -- "$word") ;;
    --code) mapfile -t COMPREPLY < <(compgen -W "c cmake console cpp csharp css diff dockerfile go haskell html ini java javascript json kotlin lisp lua make perl php protobuf pycon python ruby rust sh sql swift toml typescript xml yaml" -- "$word") ;; # the languages, written by tools/code_tables
    -w | --width) COMPREPLY=() ;;
    *)
        case $word in
        -*)
            mapfile -t COMPREPLY < <(compgen -W \
                "-w --width --skin --code --links --lines --plain --stream --live --no-pager -F -X -h --help -V --version" -- "$word")
            ;;
        *)
            compopt -o filenames
            mapfile -t COMPREPLY < <(compgen -f -- "$word")
            ;;
        esac
        ;;
    esac
}
complete -F _termimad termimad termimad-page
