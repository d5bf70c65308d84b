# Completion of legbaro for bash. The command itself says what may come: 'legbaro help --complete -- WORD..' prints a line for each
# candidate, with a tab and its meaning, or ':files' or ':folders'.
_legbaro() {
    local word=${COMP_WORDS[COMP_CWORD]} candidates
    candidates=$("${COMP_WORDS[0]}" help --complete -- "${COMP_WORDS[@]:1:COMP_CWORD}" 2>/dev/null)
    case $candidates in
    :files) mapfile -t COMPREPLY < <(compgen -f -- "$word") ;;
    :folders) mapfile -t COMPREPLY < <(compgen -d -- "$word") ;;
    '') COMPREPLY=() ;;
    *) mapfile -t COMPREPLY < <(cut -f 1 <<<"$candidates") ;;
    esac
}

complete -o filenames -F _legbaro legbaro
