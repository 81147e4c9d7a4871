# Completion of fish for the commands at the top of the repository: source this file, or link it into
# ~/.config/fish/completions under the name of each command. The options and what follows them are those that the command itself
# names in its --help; every other word is a script or a folder. The first word of desk-rez is one of its verbs, and its others
# are files.

# The lines of options in the help of the command that is typed, from the option on.
function __desk_help
    set -l words (commandline -opc)
    set -l command (string replace -r '^~/' "$HOME/" -- $words[1])
    type -q -- $command; or return
    $command --help 2>/dev/null </dev/null | string replace -r -f '^ +(-[^ ])' '$1'
end

# The options, each with the first line that the help has of it, and those that every command has.
function __desk_options
    set -l lines (__desk_help)
    test -n "$lines"; or return
    for line in $lines
        set -l parts (string split -m 1 '  ' -- $line)
        for option in (string match -r -a -- '--?[a-z-]+' $parts[1])
            printf '%s\t%s\n' $option (string trim -- "$parts[2]")
        end
    end
    printf '%s\t%s\n' --help 'prints how it is called' --version 'prints the version'
end

# What the help has behind this option, as FILE; for a few numbers, these.
function __desk_value
    set -l line (__desk_help | string replace -r -f -- "^$argv[1] ([^ ])" '$1')
    set -l range (string match -r ' from ([0-9]+) to ([0-9]+)' -- $line)
    switch "$line"
        case '{*'
            string replace -r '^\{([^}]*)\}.*' '$1' -- $line | string split ,
        case 'N *'
            if test (count $range) = 3; and test $range[3] -le 64
                seq $range[2] $range[3]
            else
                echo N
            end
        case '*'
            string split -f 1 ' ' -- $line
    end
end

# The scripts and folders whose paths begin as the word that is typed.
function __desk_scripts
    __fish_complete_path (commandline -ct) | string match -r '^[^\t]*(?:/|\.desk)(?:\t.*)?$'
end

# The verbs that the help of the command has that is typed.
function __desk_verbs
    set -l words (commandline -opc)
    set -l command (string replace -r '^~/' "$HOME/" -- $words[1])
    type -q -- $command; or return
    $command --help 2>/dev/null </dev/null | string replace -r -f '^  ([a-z]+) FILE.*' '$1'
end

# The verbs of desk-rez, or behind one files of whatever name.
function __desk_rez
    set -l verbs (__desk_verbs)
    for word in (commandline -opc)[2..-1]
        if contains -- $word $verbs
            __fish_complete_path (commandline -ct)
            return
        end
    end
    printf '%s\n' $verbs
end

function __desk_complete
    set -l words (commandline -opc)
    set -l value
    if string match -q -- '--?*' $words[-1]; and test $words[-1] != --replay
        set value (__desk_value $words[-1])
    end
    switch "$value"
        case PROGRAM FILE
            __fish_complete_path (commandline -ct)
        case FOLDER
            __fish_complete_directories (commandline -ct)
        case '0*' '1*'
            printf '%s\n' $value
        case ''
            if string match -q -- '-*' (commandline -ct)
                __desk_options
            else if string match -q -r '(^|/)desk-rez$' -- $words[1]
                __desk_rez
            else
                __desk_scripts
            end
    end
end

for command in desk desk-png desk-rez desk-talk desk-test desk-view desk-web
    complete -c $command -f -k -a '(__desk_complete)'
end
