# Completes the words of edump in bash: the command, the name of a dump, a pid or a tag that stands in it, and the words that may be
# left out. In place of FORMS `install` writes the commands, each with the kinds of its words.
_edump_forms="FORMS"

# The name of a file for which a word of the command line stands, without its quotes and backslashes: `~` and variables are
# replaced, and nothing is run.
_edump_file() {
    local word=$1 file= quote= name
    [[ $word != "~" && $word != "~/"* ]] || { file=$HOME word=${word:1}; }
    while [ -n "$word" ]; do
        if [[ $quote != "'" && $word =~ ^\$(([A-Za-z_][A-Za-z_0-9]*)|\{([A-Za-z_][A-Za-z_0-9]*)\}) ]]; then
            name=${BASH_REMATCH[2]}${BASH_REMATCH[3]}
            file+=${!name-} word=${word:${#BASH_REMATCH[0]}}
        elif [[ $word == "$quote"* && -n $quote ]]; then
            quote= word=${word:1}
        elif [[ -z $quote && $word == [\"\']* ]]; then
            quote=${word:0:1} word=${word:1}
        elif [[ $word == \\?* && ( -z $quote || $quote == '"' && $word == \\[\\\"\$\`]* ) ]]; then
            file+=${word:1:1} word=${word:2}
        else
            file+=${word:0:1} word=${word:1}
        fi
    done
    printf '%s\n' "$file"
}

# The pids of the processes of a dump, each in this form of printf. To find them the whole dump is read, so none is offered
# of a dump of more than 256 MB.
_edump_pids() {
    local pid file
    file=$(_edump_file "$1")
    [ -f "$file" ] && [ "$(wc -c <"$file")" -le 256000000 ] || return
    edump index "$file" 2>/dev/null | sed -n 's/^[0-9]* [0-9]* [0-9]* =proc:\(<[0-9.]*>\)$/\1/p' | sort -u | while read -r pid; do
        printf "$2\\n" "$pid"
    done
}

# The tags of the sections of a dump, which is read as for its pids.
_edump_tags() {
    local file
    file=$(_edump_file "$1")
    [ -f "$file" ] && [ "$(wc -c <"$file")" -le 256000000 ] || return
    edump info "$file" 2>/dev/null | sed -n 's/^tag [0-9]* \([a-z_]*\)$/\1/p'
}

# The forms of a command, each as the kinds of its words.
_edump_kinds() {
    local name kinds
    while read -r name kinds; do
        [ "$name" != "$1" ] || printf '%s\n' "$kinds"
    done <<<"$_edump_forms"
}

_edump() {
    local word=${COMP_WORDS[COMP_CWORD]} before=${COMP_WORDS[COMP_CWORD - 1]} forms form
    COMPREPLY=()
    if [ "$COMP_CWORD" -eq 1 ]; then
        COMPREPLY=($(compgen -W "$(printf '%s\n' "$_edump_forms" | cut -d ' ' -f 1)" -- "$word"))
        return
    fi
    # The kinds of the words from the file on, of which the first is the second word after the program's name. Of two forms the
    # second has a kind of roots, and is taken if that is to be completed, or stands there.
    forms=$(_edump_kinds "${COMP_WORDS[1]}")
    case "$COMP_CWORD ${COMP_WORDS[4]}" in
        "4 "* | *" stack" | *" dict" | *" mail") forms=$(printf '%s\n' "$forms" | tail -n 1) ;;
    esac
    read -ra form <<<"$forms"
    case ${form[COMP_CWORD - 2]} in
        FILE)
            compopt -o filenames
            COMPREPLY=($(compgen -f -- "$word"))
            ;;
        PID)
            local IFS=$'\n' quoting=%q
            case $word in [\"\']*) word=${word:1} quoting=%s ;; esac
            COMPREPLY=($(_edump_pids "${COMP_WORDS[2]}" "$quoting" | grep -F -- "$word"))
            ;;
        "[NODES]" | "[marked]") [ "$before" = marked ] || COMPREPLY=($(compgen -W "marked" -- "$word")) ;;
        "[N]" | "[pids]") [[ " ${form[*]} " != *" [pids]"* || $before = pids ]] || COMPREPLY=($(compgen -W "pids" -- "$word")) ;;
        TAG) COMPREPLY=($(compgen -W "$(_edump_tags "${COMP_WORDS[2]}")" -- "$word")) ;;
        KIND) COMPREPLY=($(compgen -W "stack dict mail" -- "$word")) ;;
        "[full]") COMPREPLY=($(compgen -W "full" -- "$word")) ;;
    esac
}

complete -F _edump edump
