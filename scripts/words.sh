# shellcheck shell=bash disable=SC2154
# Read by program.sh where a program ended with a status that is no answer: what that status means, in words on standard error.
# The sentences behind rules and points and the values of options are those of the tables of docs/formats.md.

formats="$top/docs/formats.md"
declare -A options_of=(
    [v_run]='--mode --cpus --steps --seed --frames'
    [v_drive]='--steps'
    [v_show]='--from --to --steps'
)

# find_row HEAD NAME: sets row to the second cell of the row that begins with that name, of the tables whose first cell above is
# that head.
find_row() {
    local line within=
    row=
    while IFS= read -r line; do
        case $line in
            "| $1 | "*) within=1 ;;
            "| $2 | "*)
                if [ -n "$within" ]; then
                    row=${line#"| $2 | "}
                    row=${row%% | *}
                    row=${row% |}
                    return
                fi
                ;;
            '|'*) ;;
            *) within= ;;
        esac
    done 2> /dev/null < "$formats"
    return 1
}

# say_rule BROKEN HEAD NUMBER: says the sentence of a rule or a point.
say_rule() {
    if find_row "$2" "$3"; then
        say "$1 breaks ${2,,} $3: $row (docs/formats.md has all ${2,,}s)"
    else
        say "$1 breaks ${2,,} $3 (docs/formats.md)"
    fi
}

# explain_status PROGRAM STATUS LINE WORD..: of a program that ended so on these words, with that as the first line of its answer.
explain_status() {
    case $2 in
        3)
            if [ -d /dev/stdin ]; then
                say 'standard input is a folder, and no folder can be read'
            else
                say 'standard input could not be read to its end'
            fi
            ;;
        4) say 'standard output failed, so only the beginning of the answer was written, if anything' ;;
        5) explain_fault "$3" ;;
        6) say 'memory ran out, and nothing was written' ;;
        7) say_wrong_word "$1" "${@:4}" || say 'these words are not taken' ;;
        8) say 'standard input has more than the 4,194,304 bytes that are read' ;;
        11) [[ ! $3 =~ ^journal\ no\ at\ ([0-9]+)\ point\ ([0-9]+)$ ]] ||
            say_rule "place ${BASH_REMATCH[1]} of the journal, counted from 0," Point "${BASH_REMATCH[2]}" ;;
        12) [[ ! $3 =~ ^journal\ fault\ line\ ([0-9]+)$ ]] ||
            say "line ${BASH_REMATCH[1]} behind the scenario's line \`end\`, counted from 1, is no entry of a journal (docs/formats.md, \"Journal\")" ;;
    esac
}

explain_fault() {
    if [[ $1 =~ ^scenario\ fault\ line\ ([0-9]+)\ rule\ ([0-9]+)$ ]]; then
        say_rule "line ${BASH_REMATCH[1]}" Rule "${BASH_REMATCH[2]}"
    else
        say 'the line that the answer ends with is no operation (docs/formats.md, "Operations on the board")'
    fi
}

# say_wrong_word PROGRAM WORD..: says which word the program doesn't take, and why, unless that was said. It fails where it takes
# all.
said_word=${said_word-}
say_wrong_word() {
    local wrong=
    find_wrong_word "$@"
    [ -n "$wrong" ] || return
    [ -n "$said_word" ] || say "$wrong"
    said_word=1
}

# Sets wrong to why the words aren't taken, or to nothing.
find_wrong_word() {
    local options=${options_of[$1]-} word name at given=' '
    local -a words=("${@:2}")
    for ((at = 0; at < ${#words[@]}; at++)); do
        word=${words[at]}
        name=${word%%=*}
        if [[ $word == -- ]]; then
            ((at + 1 == ${#words[@]})) || wrong="no word may stand behind --, as '${words[at + 1]}' does"
            return
        elif [[ $word != --?* ]] || [[ " $options " != *" $name "* ]]; then
            not_an_option "$at"
        elif [[ $given == *" $name "* ]]; then
            wrong="$name stands twice"
        elif [[ $word == *=* ]]; then
            check_value "$name" "${word#*=}"
        elif ((at + 1 == ${#words[@]})); then
            wrong="$name has no value behind it"
        else
            check_value "$name" "${words[++at]}"
        fi
        [ -z "$wrong" ] || return
        given+="$name "
    done
}

# not_an_option AT: of the word of words at that place.
not_an_option() {
    local word=${words[$1]} others
    if [ -f "$word" ] || [ -p "$word" ]; then
        others=("${words[@]:0:$1}" "${words[@]:$1+1}")
        wrong="$word is a file, and the input is read from standard input: $(printf '%q ' "$0" "${others[@]}")< $(printf '%q' "$word")"
    elif [ -n "$options" ]; then
        wrong="'$word' is none of ${options// /, }"
    else
        wrong="'$word' is not taken"
    fi
}

# check_value OPTION VALUE: sets wrong where the option doesn't take the value.
check_value() {
    local least most value=${2#+}
    find_row Option "\`$1\`" || return 0
    row=${row%%:*}
    if [[ $row =~ ^([0-9,]+)\ to\ ([0-9,]+)$ ]]; then
        least=${BASH_REMATCH[1]//,/}
        most=${BASH_REMATCH[2]//,/}
        if [[ $value =~ ^0*([0-9]{1,10})$ ]] && ((10#${BASH_REMATCH[1]} >= least && 10#${BASH_REMATCH[1]} <= most)); then
            return
        fi
    elif [[ $row == *"\`$2\`"* ]]; then
        return
    fi
    wrong="$1 takes ${row//\`/}, and not '$2'"
}
