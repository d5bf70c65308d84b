# Completion of legbaro for fish: as completion.bash.
function __legbaro
    set -l words (commandline -opc) (commandline -ct)
    set -l candidates ($words[1] help --complete -- $words[2..-1] 2>/dev/null)
    switch "$candidates[1]"
        case :files
            __fish_complete_path $words[-1]
        case :folders
            __fish_complete_directories $words[-1]
        case '*'
            string join \n -- $candidates
    end
end

complete -c legbaro -f -a '(__legbaro)'
