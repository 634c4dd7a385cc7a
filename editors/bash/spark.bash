# Completion of spark for bash: the command, then Ada sources and folders.
_spark() {
    local word=${COMP_WORDS[COMP_CWORD]} found
    COMPREPLY=()
    if [ "$COMP_CWORD" -eq 1 ]; then
        COMPREPLY=($(compgen -W 'check leaks make run selftest' -- "$word"))
    elif [[ "${COMP_WORDS[1]}" =~ ^(check|leaks|run)$ ]]; then
        # (a line each, as names may have blanks)
        while IFS= read -r found; do
            COMPREPLY+=("$found")
        done < <(compgen -f -X '!*.ad[bs]' -- "$word"; compgen -d -- "$word")
    fi
}
complete -o filenames -F _spark spark
