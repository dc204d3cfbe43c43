# What the front says after the program's own message: which argument was not understood, which
# line of which file is bad, why a file could not be read, and notes on what was printed. It speaks
# of `command`, `words`, `options`, `message`, `status` and `program` of the script `mystery`.
# shellcheck shell=bash disable=SC2154

# --- Arguments outside the grammar ---

# Prints how many letters must be changed, added, dropped or swapped to make one text the other.
distance() {
    local a=$1 b=$2 i j cost best
    local -a before=() last=() row=()
    for ((j = 0; j <= ${#b}; j++)); do
        last[j]=$j
    done
    for ((i = 1; i <= ${#a}; i++)); do
        row=("$i")
        for ((j = 1; j <= ${#b}; j++)); do
            [ "${a:i-1:1}" = "${b:j-1:1}" ]
            cost=$?
            best=$((last[j - 1] + cost))
            ((last[j] + 1 < best)) && best=$((last[j] + 1))
            ((row[j - 1] + 1 < best)) && best=$((row[j - 1] + 1))
            if ((i > 1 && j > 1 && before[j - 2] + 1 < best)) && [ "${a:i-1:1}" = "${b:j-2:1}" ] &&
                [ "${a:i-2:1}" = "${b:j-1:1}" ]; then
                best=$((before[j - 2] + 1))
            fi
            row[j]=$best
        done
        before=("${last[@]}") last=("${row[@]}")
    done
    printf '%s' "${last[${#b}]}"
}

# Prints which of the other texts is nearest to the first, if one is near.
nearest() {
    local text=$1 most=$((${#1} / 3 + 1)) other found near=
    ((${#text} <= 64)) || return 0
    for other in "${@:2}"; do
        found=$(distance "$text" "$other")
        if ((found <= most && found < ${#other})); then
            most=$((found - 1)) near=$other
        fi
    done
    printf '%s' "$near"
}

# Tells whether a text is a whole number in plain digits, from the first bound to the second.
is_number() {
    [[ $1 =~ ^(0|[1-9][0-9]{0,9})$ ]] && (($1 >= $2 && $1 <= $3))
}

# Tells whether a text is UTF-8.
is_utf8() {
    local LC_ALL=C
    local more=$'[\x80-\xbf]'
    local form=$'^([\x01-\x7f]|[\xc2-\xdf]'$more$'|\xe0[\xa0-\xbf]'$more$'|[\xe1-\xec\xee\xef]'$more$more
    form+=$'|\xed[\x80-\x9f]'$more$'|\xf0[\x90-\xbf]'$more$more$'|[\xf1-\xf3]'$more$more$more
    form+=$'|\xf4[\x80-\x8f]'$more$more')*$'
    [[ $1 =~ $form ]]
}

# Says what is wrong with an option of the program, or with what stands where the command does.
explain_option() {
    local near
    case $1 in
    --workers) say "--workers needs a number from 1 to 64 after it" ;;
    --given) say "--given needs a FILE after it, with what 'summarize' printed" ;;
    --workers=* | --given=*) say "'$1' was not understood: write '${1%%=*} ${1#*=}'" ;;
    *)
        near=$(nearest "$1" $(all_options))
        say "there is no option '$1'${near:+; did you mean '$near'?}"
        ;;
    esac
}

# Says which command may be meant.
explain_command() {
    local near
    near=$(nearest "$1" $(all_commands))
    if [ -z "$near" ] && [ -f "$1" ]; then
        say "'$1' is a file, and a command comes before it, as in: mystery report '$1'"
    else
        say "'$1' is no command${near:+; did you mean '$near'?}"
    fi
}

# Says which argument of `whatif` was not understood.
explain_whatif() {
    if (($# < 5)); then
        say "whatif takes TASK START END NUM DEN, the name of a segment and a fraction, and then files"
    elif [ -z "$1" ] || [ -z "$2" ] || [ -z "$3" ]; then
        say "TASK, START and END are texts, and none is empty"
    elif ! is_number "$5" 1 1000000; then
        say "'$5' was not understood: DEN is a whole number from 1 to 1000000, in plain digits"
    elif ! is_number "$4" 0 "$5"; then
        say "'$4' was not understood: NUM is a whole number from 0 to DEN, in plain digits"
    else
        return 1
    fi
}

# Says which option of `evidence` was not understood.
explain_evidence() {
    local seen=
    while [[ ${1-} =~ ^--(least|reduced)$ ]]; do
        if [[ " $seen " = *" $1 "* ]]; then
            say "'$1' stands twice"
            return
        fi
        seen+=" $1"
        if [ "$1" = --least ]; then
            if (($# < 2)); then
                say "--least needs a whole number from 1 to 2147483647 after it"
                return
            elif ! is_number "$2" 1 2147483647; then
                say "'$2' was not understood: --least takes a whole number from 1 to 2147483647, in plain digits"
                return
            fi
            shift
        fi
        shift
    done
    return 1
}

# Says which argument of `drill` was not understood.
explain_drill() {
    if (($# != 2)); then
        say "drill takes two arguments, NUMBER and TRACES"
    elif ! is_number "$1" 0 2147483647; then
        say "'$1' was not understood: NUMBER is a whole number from 0 to 2147483647, in plain digits"
    elif ! is_number "$2" 1 20000; then
        say "'$2' was not understood: TRACES is a whole number from 1 to 20000, in plain digits"
    fi
}

# Says what is wrong with the files of a command.
explain_files() {
    local name=$1 place
    shift
    if [ -n "${twice-}" ]; then
        say "'-' stands twice, and standard input can be read once"
    elif [ "$name" = verify ] && (($# < 1)); then
        say "verify takes CERT, a file that 'why' printed, and then the files of the events"
    elif [ "$name" = replay ] && (($# > 1)); then
        say "replay takes one file of steps"
    elif needs_no_file "$name" && (($# == 0)); then
        say "a file that is given has an empty name"
    elif (($# <= fixed)); then
        say "$name needs a FILE; '-' is standard input"
    else
        for ((place = first_file + 1; place <= $#; place++)); do
            [ -n "${!place}" ] || say "argument $place of $name is empty"
        done
    fi
}

# Says which argument was not understood, what is near it, and where options stand.
explain_usage() {
    local word first_file fixed
    for word in "$@"; do
        is_utf8 "$word" || { say "an argument is not UTF-8: ${word@Q}" && return; }
    done
    while [ "${1-}" = --workers ] && (($# > 1)) && is_number "$2" 1 64; do
        shift 2
    done
    while [ "${1-}" = --given ] && (($# > 1)); do
        shift 2
    done
    if [ "${1-}" = --workers ] && (($# > 1)); then
        say "'$2' was not understood: --workers takes a whole number from 1 to 64, in plain digits"
    elif (($# == 0)); then
        say "there is no command"
    elif [[ $1 = -* ]]; then
        explain_option "$1"
    elif [ "$1" = drill ] && ((${#given[@]} == 0)); then
        explain_drill "${@:2}"
    elif ((${#given[@]})) && [[ " $UNGIVEN " = *" $1 "* ]]; then
        say "$1 takes no --given"
    elif ! places_of "$@"; then
        explain_command "$1"
    elif { [ "$1" != whatif ] || ! explain_whatif "${@:2}"; } &&
        { [ "$1" != evidence ] || ! explain_evidence "${@:2}"; }; then
        explain_files "$@"
    fi
    say "options of the program stand before the command, its own right after it, before its files"
    if (($#)) && places_of "$1"; then
        say "'mystery help $1' says more"
    else
        say "'mystery help' lists the commands"
    fi
}

# --- Files ---

# Prints the name of a file as a person knows it.
shown_name() {
    if [ "$1" = /dev/stdin ]; then
        printf 'standard input'
    else
        printf '%s' "$1"
    fi
}

# Prints how many lines a regular file has.
count_lines() {
    local LC_ALL=C count=0 lines
    while mapfile -t -n 65536 lines && ((${#lines[@]})); do
        ((count += ${#lines[@]}))
    done <"$1"
    printf '%s' "$count"
}

# Sets `found` and `line` to the file, of these, that has the line with this number over all of
# them, and to its number there. It is found by counting, so the files before it are regular.
find_line() {
    local count
    line=$1
    shift
    while (($# > 1)); do
        [ -f "$1" ] && [ -r "$1" ] || return 1
        count=$(count_lines "$1")
        ((line <= count)) && break
        line=$((line - count))
        shift
    done
    found=$1
}

# Says what to do with a file whose first line begins in a way that tells what it is.
explain_first_line() {
    local LC_ALL=C start again
    [ -f "$1" ] && IFS= read -r -d '' -N 3 start <"$1" 2>/dev/null
    case $command in
    whatif) again='whatif TASK START END NUM DEN' ;;
    verify) again='verify CERT' ;;
    *) again=$command ;;
    esac
    case ${start-} in
    $'\xef\xbb\xbf') say "the file begins with a byte-order mark; without it: tail -c +4 FILE | mystery $again -" ;;
    $'\x1f\x8b'*) say "the file is compressed by gzip: gzip -dc FILE | mystery $again -" ;;
    '['*) say "the file is one JSON array, and each line is to be an object: jq -c '.[]' FILE | mystery $again -" ;;
    esac
}

# Says what may have come into a file with a summary.
explain_summary() {
    local LC_ALL=C row
    [ -f "$1" ] && IFS= read -r row <"$1" 2>/dev/null
    if [[ ${row-} = refused$'\t'* ]]; then
        say "the rows of refused traces come before the summary; without them: grep -v '^refused' FILE"
    fi
}

# Sets `given_files` to the files of the options.
find_given() {
    local place
    given_files=()
    for ((place = 1; place < ${#given[@]}; place += 2)); do
        given_files+=("${given[place]}")
    done
}

# Says in which file the bad line is, and what to do with a file of another form.
explain_line() {
    local number reason found line given_files form='^line ([0-9]+): ([^'$'\n'']*)'
    [[ $message =~ $form ]] && places_of "${words[@]}" || return 0
    number=${BASH_REMATCH[1]} reason=${BASH_REMATCH[2]}
    find_given
    case $reason in
    'bad certificate') find_line "$number" "${words[1]}" || return 0 ;;
    'bad summary') find_line "$number" "${given_files[@]}" || return 0 ;;
    *) find_line "$number" "${words[@]:1+fixed}" || return 0 ;;
    esac
    printf '(%s, line %s)\n' "$(shown_name "$found")" "$line" >&2
    if [ "$reason" = 'bad summary' ]; then
        explain_summary "$found"
    elif ((line == 1)); then
        explain_first_line "$found"
    fi
}

# Prints why the system does not let a file be read.
reason_of() {
    local told
    if [ -d "$1" ]; then
        printf 'is a directory'
    elif [ -p "$1" ] || [ -S "$1" ] || told=$({ LC_ALL=C && : <"$1"; } 2>&1); then
        printf 'cannot be read'
    else
        told=${told##*: }
        printf '%s' "${told,}"
    fi
}

# Says which file could not be read, and why.
explain_file() {
    local name number given_files form='^file ([0-9]+): '
    [[ $message =~ $form ]] && places_of "${words[@]}" || return 0
    number=${BASH_REMATCH[1]}
    find_given
    if ((number <= ${#given_files[@]})); then
        name=${given_files[number - 1]}
    else
        name=${words[number - ${#given_files[@]} + first_file]}
    fi
    printf '(%s: %s)\n' "$(shown_name "$name")" "$(reason_of "$name")" >&2
    if [[ $name = -* ]]; then
        say "'$name' stands where files do: options of the program stand before the command"
    fi
}

# --- Notes on what was printed ---

# Tells whether all files of the events are regular, so that they can be read again.
are_regular() {
    local file
    for file in "${words[@]:1+fixed}"; do
        [ -f "$file" ] && [ -r "$file" ] || return 1
    done
}

# Sets `traces` to how many traces the last header of this view in the text tells of.
traces_of() {
    local after=$'\n'$1
    after=${after##*$'\n'"$2"$'\t'traces=}
    traces=${after%%[!0-9]*}
}

# Prints what there is near a segment's name in the text of a report: segments of the task, or the
# nearest task.
near_segments() {
    local text=$1 task=$2 kind of start end near shown=0
    local -A tasks=()
    while IFS=$'\t' read -r kind of start end _; do
        [ "$kind" = segment ] || continue
        tasks[$of]=1
        if [ "$of" = "$task" ] && ((shown++ < 3)); then
            printf "; there is '%s' '%s' '%s'" "$of" "$start" "$end"
        fi
    done <<<"$text"
    if ((shown == 0)); then
        near=$(nearest "$task" "${!tasks[@]}")
        [ -z "$near" ] || printf "; there is a task '%s'" "$near"
    fi
}

# Notes that no kept trace has the segment whose name `whatif` was given: told by the rows of the
# report on the same files.
note_missing_segment() {
    local text last traces
    text=$("$program" "${options[@]}" report "${words[@]:6}" 2>/dev/null) || return 0
    last=$'\n'$text
    last=report${last##*$'\nreport'}
    traces_of "$last" report
    if [ "$traces" = 0 ]; then
        say "note: no trace is kept"
    elif [[ $last != *$'\n'segment$'\t'"${words[1]}"$'\t'"${words[2]}"$'\t'"${words[3]}"$'\t'* ]]; then
        say "note: no kept trace has a segment '${words[1]}' '${words[2]}' '${words[3]}'$(
            near_segments "$last" "${words[1]}"
        )"
    fi
}

# Tells whether a file has the usual spelling of an `add` line. Where it has another, a second run
# tells.
has_add() {
    local LC_ALL=C file lines
    if type -P grep >/dev/null; then
        grep -qE '"do": ?"add"' -- "${words[@]:1}"
        return
    fi
    for file in "${words[@]:1}"; do
        while mapfile -t -n 4096 lines && ((${#lines[@]})); do
            [[ ${lines[*]} == *'"do":"add"'* || ${lines[*]} == *'"do": "add"'* ]] && return
        done <"$file"
    done
    return 1
}

# Notes that a session had events but no `add`: told by the text of the same session with a
# report, an `add` and a second report behind it.
note_no_add() {
    local text before after own traces some=$'\n(drop|keep)\t[0-9]+\t[1-9]'
    has_add && return
    text=$'\n'$("$program" "${options[@]}" session "${words[@]:1}" <(
        printf '%s\n' '{"do":"report"}' '{"do":"add"}' '{"do":"report"}'
    ) 2>/dev/null) || return 0
    before=${text%$'\nreport\t'*} own=${before%$'\nreport\t'*} after=${before##*$'\nreport\t'}
    traces_of "$before" report
    if ((traces > 0)) || [[ $own == *$'\nrefused\t'* || $own =~ $some ]]; then
        return
    fi
    traces_of "$text" report
    if ((traces > 0)) || [[ $after == *$'\nrefused\t'* ]]; then
        say 'note: the session has events but no add, so no trace of them is kept'
        say 'a line {"do":"add"} after them keeps their traces; the other commands add by themselves'
    fi
}

# Notes what a person may have missed in what was printed.
note_of_text() {
    case $command in
    whatif) are_regular && note_missing_segment ;;
    session) are_regular && note_no_add ;;
    esac
    return 0
}
