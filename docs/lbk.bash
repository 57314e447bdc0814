# Completes the words of lbk in bash. scripts/completion makes it from the program's help.
_lbk() {
    local word=${COMP_WORDS[COMP_CWORD]} before=${COMP_WORDS[COMP_CWORD - 1]} options=
    COMPREPLY=()
    if [ "$COMP_CWORD" = 1 ]; then
        mapfile -t COMPREPLY < <(compgen -W "mark show segment chunk replay help --help --version" -- "$word")
        return
    fi
    case ${COMP_WORDS[1]} in
    mark) options="--unicode --ucd --line-break --east-asian --category --emoji --limit --from --to --profile --names --sign --help" ;;
    show) options="--unicode --ucd --line-break --east-asian --category --emoji --limit --from --to --profile --names --help" ;;
    segment) options="--unicode --ucd --line-break --east-asian --category --emoji --limit --from --to --profile --names --help" ;;
    chunk) options="--unicode --ucd --line-break --east-asian --category --emoji --most --words --least --overlap --text --limit --from --to --profile --names --help" ;;
    replay) options="--unicode --ucd --line-break --east-asian --category --emoji --kinds --profile --names --help" ;;
    help)
        mapfile -t COMPREPLY < <(compgen -W "mark show segment chunk replay" -- "$word")
        return
        ;;
    *) return ;;
    esac
    case $before in
    --ucd)
        compopt -o filenames
        mapfile -t COMPREPLY < <(compgen -d -- "$word")
        return
        ;;
    --unicode)
        mapfile -t COMPREPLY < <(compgen -W "15.0" -- "$word")
        return
        ;;
    --limit|--from|--to|--profile|--sign|--most|--words|--least|--overlap) return ;;
    esac
    case $word in
    -*) mapfile -t COMPREPLY < <(compgen -W "$options" -- "$word") ;;
    *)
        compopt -o filenames
        mapfile -t COMPREPLY < <(compgen -f -- "$word")
        ;;
    esac
}
complete -F _lbk lbk
