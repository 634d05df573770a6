# Completion of anb for bash. Each command has a line with the words that it takes before its options.

_anb_kinds() {
    case $1 in
        chart | fmt | why) echo narration ;;
        explain | compile) echo narration role ;;
        play | branch | host | probe) echo narration role values ;;
        park) echo narration role values file ;;
        resume) echo narration role file file ;;
        replay | trace | judge) echo narration role values file ;;
        stage) echo narration values ;;
        rehearse) echo narration values file ;;
        check | values) echo narration role values ;;
        drill) echo number ;;
        enact) echo file values ;;
        certify) echo narration role file ;;
        help) echo command ;;
    esac
}

_anb_commands='check chart explain fmt why play probe values branch park resume host replay trace judge stage rehearse drill compile enact certify help'

# The options that can follow these words of a command, which stand after all others.
_anb_options() {
    local command=$1 arm='' place='' record=''
    shift
    [[ $command == probe ]] && _anb_probing "$@" && return
    [[ $command == chart && $# == 0 ]] && echo --role
    [[ $command == replay || $command == trace ]] && (($# == 0)) && echo --session
    case $command in
        branch) arm=--arm place='--dial --listen' ;;
        play | host | park | resume | enact) place='--dial --listen' ;;
        stage) place='--as --timeout' record=--record ;;
    esac
    case $command in play | enact | branch | host | park | resume) record=--record ;; esac
    [[ $1 == --arm ]] && shift 2 && arm=''
    while [[ $1 == --as ]] && (($# >= 3)); do shift 3; done
    [[ $command == stage && $1 == --timeout ]] && (($# == 2)) && echo --record
    case $# in
        0) echo "$arm" "$place" "$record" ;;
        2) [[ $1 == --dial || $1 == --listen ]] && echo --timeout "$record" ;;
        4) [[ $3 == --timeout ]] && echo "$record" ;;
    esac
}

# The words of probe that can follow these, before the program or the place.
_anb_probing() {
    local words='--all --case --timeout --record --dial --'
    [[ $1 == --all ]] && shift && words='--case --timeout --record --dial --'
    [[ $1 == --case ]] && shift 2 && words='--timeout --record --dial --'
    [[ $1 == --timeout ]] && shift 2 && words='--record --dial --'
    [[ $1 == --record ]] && shift 2 && words='--dial --'
    (($#)) || echo "$words"
}

# The file that a word of the line names: without quotes, and with the home folder for ~ and $HOME.
_anb_file() {
    local word=$1 mark=${1:0:1}
    case $mark in
        \" | \') word=${word:1} word=${word%"$mark"} ;;
        *) word=${word//\\/} ;;
    esac
    [[ $mark == \' ]] || case $word in
        '$HOME/'*) word=$HOME/${word#*/} ;;
        '${HOME}/'*) word=$HOME/${word#*/} ;;
        '~/'*) [[ $mark == \" ]] || word=$HOME/${word#*/} ;;
    esac
    printf '%s' "$word"
}

# The agents that a narration declares, in all lists, also over several lines.
_anb_roles() {
    local file
    file=$(_anb_file "$1")
    [[ -f $file ]] && awk '
        { sub(/#.*/, ""); text = text " " $0 }
        END {
            sub(/(Formats|Knowledge|Actions)[ \t\r]*:.*/, "", text)
            count = split(text, items, ";")
            for (i = 1; i <= count; i++)
                if (match(items[i], /(^|[^A-Za-z0-9_])Agent[ \t\r]+/)) {
                    names = substr(items[i], RSTART + RLENGTH)
                    gsub(/[^A-Za-z0-9_]+/, " ", names)
                    print names
                }
        }' <"$file"
}

# What is offered: these words, or files with this ending, or folders.
_anb_offer() {
    mapfile -t COMPREPLY < <(compgen -W "$1" -- "$word")
}

_anb_files() {
    local file=$word
    [[ $word == '~'* ]] || file=$(_anb_file "$word")
    compopt -o filenames 2>/dev/null
    mapfile -t COMPREPLY < <(compgen -f -X "!*$1" -- "$file"; [[ $1 ]] && compgen -d -- "$file")
}

_anb() {
    local word=${COMP_WORDS[COMP_CWORD]} words=() kinds part at
    COMPREPLY=()
    # bash takes an address apart at its colon.
    for part in "${COMP_WORDS[@]:0:COMP_CWORD+1}"; do
        at=$((${#words[@]} - 1))
        if ((at >= 0)) && [[ $part == :* || ${words[at]} == *: ]]; then
            words[at]+=$part
        else
            words+=("$part")
        fi
    done
    at=$((${#words[@]} - 1))
    if ((at == 1)); then
        [[ $word == -* ]] && _anb_offer '--help --version' || _anb_offer "$_anb_commands"
        return
    fi
    read -ra kinds < <(_anb_kinds "${words[1]}")
    case ${kinds[at - 2]-} in
        narration) _anb_files .anb ;;
        values) _anb_files .values ;;
        file) _anb_files '' ;;
        role) _anb_offer "$(_anb_roles "${words[2]}")" ;;
        command) _anb_offer "$_anb_commands" ;;
        number) ;;
        *)
            ((${#kinds[@]})) || return
            if [[ ${words[1]} == probe && " ${words[*]:5:at-5} " == *' -- '* ]]; then
                _anb_files ''
                [[ ${words[at - 1]} == -- ]] && mapfile -t -O ${#COMPREPLY[@]} COMPREPLY < <(compgen -c -- "$word")
                return
            fi
            [[ ${words[at - 2]} == --as ]] && _anb_files '' && return
            case ${words[at - 1]} in
                --role | --as) _anb_offer "$(_anb_roles "${words[2]}")" ;;
                --arm) _anb_offer '1 2 3 4 5 6 7 8' ;;
                --dial | --listen | --timeout | --case | --session) ;;
                --record)
                    case ${words[1]} in
                        play | enact | branch | host | probe | stage) compopt -o filenames 2>/dev/null; mapfile -t COMPREPLY < <(compgen -d -- "$(_anb_file "$word")") ;;
                        *) _anb_files '' ;;
                    esac
                    ;;
                *) _anb_offer "$(_anb_options "${words[1]}" "${words[@]:${#kinds[@]}+2:at-${#kinds[@]}-2}")" ;;
            esac
            ;;
    esac
}

complete -F _anb anb
