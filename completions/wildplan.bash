# Completions for bash, made by tools/make_pages.py from the tables of docs/
_wildplan() {
    local word=${COMP_WORDS[COMP_CWORD]} before=${COMP_WORDS[COMP_CWORD - 1]}
    COMPREPLY=()
    case $before in
        -z) mapfile -t COMPREPLY < <(compgen -W 'stack-size=' -- "$word"); return ;;
        --export | --export-if-defined | --entry | -e | --extra-features | --initial-memory | --max-memory | --keep-section | --replace | --generate | --run | =) return ;;
    esac
    if [[ $word == -* ]]; then
        mapfile -t COMPREPLY < <(compgen -W '--allow-undefined --check-features --check= --entry= --export-dynamic --export-if-defined= --export-memory --export= --extra-features= --gc-sections --generate= --import-memory --initial-memory= --keep-section= --map --max-memory= --no-check-features --no-entry --no-gc-sections --no-stack-first --replace= --run= --shared-memory --stack-first --strip-all --strip-debug --why -S -e -o -s -z' -- "$word")
        [[ ${COMPREPLY[0]} == *= ]] && compopt -o nospace
    elif [[ $word != = ]]; then
        mapfile -t COMPREPLY < <(compgen -f -- "$word")
        compopt -o filenames
    fi
} 2>/dev/null
complete -F _wildplan wildplan
