# Completes the words of sokoaudit in bash: commands, options and the names of files.
_sokoaudit() {
    local commands="audit make dead help" word=${COMP_WORDS[COMP_CWORD]}
    local at files=0 is_plain=
    COMPREPLY=()
    # the number of file names before the word
    for ((at = 2; at < COMP_CWORD; at++)); do
        case $is_plain${COMP_WORDS[at]} in
            --) is_plain=yes ;;
            -h | --help) return ;;
            *) files=$((files + 1)) ;;
        esac
    done
    if [ -z "$is_plain" ] && [[ $word == -* ]]; then
        mapfile -t -O ${#COMPREPLY[@]} COMPREPLY < <(compgen -W "-h --help" -- "$word")
        [ "$COMP_CWORD" != 1 ] || mapfile -t -O ${#COMPREPLY[@]} COMPREPLY < <(compgen -W "-V --version" -- "$word")
        return
    fi
    case $COMP_CWORD:${COMP_WORDS[1]}:$files in
        1:* | 2:help:*) mapfile -t COMPREPLY < <(compgen -W "$commands" -- "$word") ;;
        *:audit:[01] | *:make:0 | *:dead:0)
            compopt -o filenames 2>/dev/null
            mapfile -t COMPREPLY < <(compgen -f -- "$word")
            ;;
    esac
}
complete -F _sokoaudit sokoaudit
