# Completion of bash for the commands at the top of the repository: source this file. The options and what follows them are
# those that the command itself names in its --help; every other word is a file or a folder, and of files the scripts alone
# where the command takes scripts. The first word of desk-rez is one of its verbs.

# The lines of options in the help of a command, from the option on. Where the command is not there, there are none.
_desk_help() {
    "$1" --help 2> /dev/null < /dev/null | sed -n -E 's/^ +(-[^ ].*)/\1/p'
}

# The options that the help of a command has, and those that every command has.
_desk_options() {
    local lines
    lines=$(_desk_help "$1")
    [ -z "$lines" ] || { sed -E 's/  .*//' <<< "$lines" | grep -oE -- '--?[a-z-]+'; printf '%s\n' --help --version; } | sort -u
}

# What the help of a command has behind an option, as FILE; for a few numbers, these.
_desk_value() {
    local line first last
    line=$(_desk_help "$1" | sed -n -E "s/^$2 ([^ ]+)/\1/p")
    case $line in
        '{'*) sed -E 's/^\{([^}]*)\}.*/\1/; s/,/ /g' <<< "$line" ;;
        'N '*)
            read -r first last < <(sed -n -E 's/.* from ([0-9]+) to ([0-9]+).*/\1 \2/p' <<< "$line")
            if [ -n "$first" ] && [ "$last" -le 64 ]; then seq -s ' ' "$first" "$last"; else echo N; fi
            ;;
        *) echo "${line%% *}" ;;
    esac
}

# The verbs that the help of a command has, each in a line before two spaces.
_desk_verbs() {
    "$1" --help 2> /dev/null < /dev/null | sed -n -E 's/^  ([a-z]+) FILE.*/\1/p'
}

# What a word of desk-rez may become that is no option: a verb, or behind one a file of whatever name.
_desk_rez() {
    local command=$1 word=$2 verbs it
    verbs=$(_desk_verbs "$command")
    for it in "${COMP_WORDS[@]:1:COMP_CWORD - 1}"; do
        if [[ -n $it && $'\n'$verbs$'\n' == *$'\n'"$it"$'\n'* ]]; then
            compgen -f -- "$word"
            return
        fi
    done
    compgen -W "$verbs" -- "$word"
}

_desk() {
    local command=$1 word=$2 before=$3 value=''
    compopt -o filenames 2> /dev/null
    [[ $before != --?* ]] || value=$(_desk_value "$command" "$before")
    case $before:$value in
        --replay:*) value='' ;;
    esac
    case $value in
        PROGRAM | FILE) mapfile -t COMPREPLY < <(compgen -f -- "$word") ;;
        FOLDER) mapfile -t COMPREPLY < <(compgen -d -- "$word") ;;
        [0-9]*) mapfile -t COMPREPLY < <(compgen -W "$value" -- "$word") ;;
        '')
            if [[ $word == -* ]]; then
                mapfile -t COMPREPLY < <(compgen -W "$(_desk_options "$command")" -- "$word")
            elif [[ ${command##*/} == desk-rez ]]; then
                mapfile -t COMPREPLY < <(_desk_rez "$command" "$word")
            else
                mapfile -t COMPREPLY < <(compgen -d -- "$word"; compgen -f -X '!*.desk' -- "$word")
            fi
            ;;
        *) COMPREPLY=() ;;
    esac
}

complete -F _desk desk desk-png desk-rez desk-talk desk-test desk-view desk-web
