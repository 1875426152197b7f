# Completion of the command first_pass, for bash. Its help lists the commands, the options of each, and their names.

# Prints the words that begin a line of a help, after two spaces or a short option, and match a pattern.
_first_pass_words() { first_pass "${@:2}" --help 2> /dev/null | sed -nE "s/^  (-., |    )?($1)( .*|$)/\2/p"; }

_first_pass() {
    local word=${COMP_WORDS[COMP_CWORD]} before=${COMP_WORDS[COMP_CWORD - 1]} named words
    # (bash parts --options=NAME into three words)
    case $before:$word in
        *:=) word='' ;;
        =:*) before=${COMP_WORDS[COMP_CWORD - 2]} ;;
    esac
    if [ "$COMP_CWORD" -eq 1 ]; then
        words="$(_first_pass_words '[a-z]+') --help --version"
    elif [[ $before == -o || $before == --options ]]; then
        # (the last of several names with commas between them)
        named=${word%"${word##*,}"}
        words=$(_first_pass_words '[a-z_]+' "${COMP_WORDS[1]}")
        compopt -o nospace
    elif [[ $word == -* ]]; then
        words=$(_first_pass_words '--[a-z-]+' "${COMP_WORDS[1]}")
    else
        mapfile -t COMPREPLY < <(compgen -f -- "$word")
        compopt -o filenames
        return
    fi
    mapfile -t COMPREPLY < <(compgen -P "${named-}" -W "$words" -- "${word#"${named-}"}")
}

complete -F _first_pass first_pass
