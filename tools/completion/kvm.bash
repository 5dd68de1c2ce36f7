# Completion for bash of kvm, kvc, kvm-judge, kvm-check-rules and kvm-timeline. tools/install puts it where bash looks for it.

# Offers words that begin with the one at the cursor.
_kvm_words() {
    local word
    while IFS= read -r word; do COMPREPLY+=("$word"); done < <(compgen -W "$1" -- "${COMP_WORDS[COMP_CWORD]}")
}

# Offers files and folders.
_kvm_files() {
    local word
    compopt -o filenames 2> /dev/null
    while IFS= read -r word; do COMPREPLY+=("$word"); done < <(compgen -f -- "${COMP_WORDS[COMP_CWORD]}")
}

# Offers the options where the word at the cursor begins with a dash, and else files.
_kvm_options_or_files() {
    if [[ ${COMP_WORDS[COMP_CWORD]} == -* ]]; then _kvm_words "$1"; else _kvm_files; fi
}

_kvm() {
    COMPREPLY=()
    if ((COMP_CWORD == 1)); then _kvm_words "replay check"; fi
}

_kvc() {
    COMPREPLY=()
    local before=${COMP_WORDS[COMP_CWORD - 1]}
    if ((COMP_CWORD == 1)); then
        _kvm_words "show make device press select alive --help"
        return
    fi
    case ${COMP_WORDS[1]} in
        show) _kvm_options_or_files "--explain --help" ;;
        make)
            if [[ $before == --ports ]]; then _kvm_words "2 3 4 5 6 7 8"
            else _kvm_options_or_files "--output --script --sort --ports --help"; fi
            ;;
        device)
            if ((COMP_CWORD == 2)); then _kvm_words "keyboard mouse token --help"
            else _kvm_options_or_files "--report --at --life --help"; fi
            ;;
        press)
            if [[ ${COMP_WORDS[COMP_CWORD]} == -* ]]; then _kvm_words "--list --at --hold --interface --help"
            elif [[ $before != --* ]]; then _kvm_words "$(kvc press --list 2> /dev/null | cut -d ' ' -f 2)"; fi
            ;;
        select)
            if ((COMP_CWORD == 2)); then _kvm_words "1 2 3 4 5 6 7 8 --at --help"; else _kvm_words "--at --help"; fi
            ;;
        alive) _kvm_words "--at --help" ;;
    esac
}

_kvm_judge() {
    COMPREPLY=()
    if ((COMP_CWORD == 1)); then
        _kvm_words "keyboard mouse token --help"
    else
        _kvm_options_or_files "--report --rules --keep --program --help"
    fi
}

_kvm_check_rules() {
    COMPREPLY=()
    _kvm_options_or_files "--quiet --program --help"
}

_kvm_timeline() {
    COMPREPLY=()
    _kvm_options_or_files "--text --from --to --width --output --help"
}

complete -F _kvm kvm
complete -F _kvc kvc
complete -F _kvm_judge kvm-judge
complete -F _kvm_check_rules kvm-check-rules
complete -F _kvm_timeline kvm-timeline
