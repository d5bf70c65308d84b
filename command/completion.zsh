#compdef legbaro
# Completion of legbaro for zsh: as completion.bash.
_legbaro() {
    local candidates
    candidates=$(${words[1]} help --complete -- "${(@)words[2,CURRENT]}" 2>/dev/null)
    case $candidates in
    :files) _files ;;
    :folders) _files -/ ;;
    ?*)
        local -a offered
        offered=(${${${(f)candidates}//:/\\:}/$'\t'/:})
        _describe legbaro offered
        ;;
    esac
}

if [ "$funcstack[1]" = _legbaro ]; then
    _legbaro "$@"
else
    compdef _legbaro legbaro
fi
