#!/usr/bin/env bash
# Runs the program `memcg`, which opens no file, on a file that its words name:
#
#   memcg WORDS..     A word FILE after `replay`, `run`, `check` or `lint` names the file that is read in place of standard
#                     input. If it can't be read, or a script has a bad line, or the sizes don't fit, a second line on
#                     standard error says more.
#   memcg --version   the program's version, and which kit proved it, of which sources.
#
# An installation has this script as bin/memcg. In a clone ./memcg takes these functions from here.
set -euo pipefail

# How the user calls this script, and why the program that is run isn't proved: empty if it is.
self=memcg
why=''

say() {
    printf 'memcg: %s\n' "$*" >&2
}

# Whether the program reads a script or a log from standard input after this word, and then ends.
is_reader() {
    case ${1-} in
        replay | run | check | lint) ;;
        *) return 1 ;;
    esac
}

# Takes the words apart: into `words`, those for the program, and `file`, the one that names a file, if exactly one
# does. `-` names standard input, and needs no word. If there are two names, the program gets them and refuses them.
take_file() {
    local at word names=()
    file=
    words=("$@")
    is_reader "$@" || return 0
    for ((at = 1; at < ${#words[@]}; at++)); do
        word=${words[at]}
        case $word in
            --frames | --cpus | --batch | --high | --stock | --reclaim-batch | --groups) at=$((at + 1)) ;;
            -) names+=("$at") ;;
            -*) ;;
            *) names+=("$at") ;;
        esac
    done
    ((${#names[@]} == 1)) || return 0
    file=${words[${names[0]}]}
    unset "words[${names[0]}]"
    words=("${words[@]}")
    [[ $file != - ]] || file=
}

# Whether a file is named that can be read.
is_readable() {
    [[ -r $file && ! -d $file ]]
}

# Runs the program with the words that follow. A clone without a proved program has another way.
answer() {
    "$program" "$@"
}

# Ends as a command with this status did: by the same signal, if it ended by one.
end_as() {
    if (($1 > 128 && $1 < 160)); then
        trap - "$(($1 - 128))"
        kill -s "$(($1 - 128))" $$
    fi
    exit "$1"
}

# Runs `lint`, with the name of the file in its findings: the program names standard input.
lint_file() {
    local ends
    set +e
    # shellcheck disable=SC2016
    answer "$@" | NAME=$file LC_ALL=C awk '/^-:/ { print ENVIRON["NAME"] substr($0, 2); next } { print }'
    ends=("${PIPESTATUS[@]}")
    end_as "$((ends[0] ? ends[0] : ends[1]))"
}

# Says after `bad line N` or `refused 14 BadConfig` why: the first bad line that `lint` finds in the kept script, for the
# same sizes, or what it says of the sizes. Unproved, that would take another minute.
tell_reason() {
    local script=$1 word sizes=()
    shift
    if [[ $why || ! -e $script ]]; then
        echo "run $self lint for the reason" >&2
        return
    fi
    while (($# > 1)); do
        shift
        for word in --frames --cpus --batch --high --stock --reclaim-batch --groups; do
            [[ $1 == "$word" ]] && sizes+=("$1" "${2-}")
            [[ $1 == "$word="* ]] && sizes+=("$1")
        done
        [[ $1 == --no-kill || $1 == --proportional ]] && sizes+=("$1")
    done
    "$program" lint "${sizes[@]}" <"$script" 2>/dev/null |
        NAME=${file:--} LC_ALL=C awk '
            /^-:[0-9]+:[0-9]+: / && !told++ { print ENVIRON["NAME"] substr($0, 2) }
            /^sizes: / && !told++ { print }
        ' >&2
}

# Runs the program with its standard error kept in a file, and writes that on. A second line says which file can't be
# read, why the first bad line of a script is one, or why the sizes don't fit. For that the script is kept, except from a
# terminal. The fault is the last line: unproved, ./memcg speaks first.
answer_with_reason() {
    local kept status fault
    kept=$(mktemp -d)
    # shellcheck disable=SC2064
    trap "rm -rf '$kept'" EXIT
    set +e
    if [[ ! -t 0 && ! $why && ($1 == replay || $1 == run) ]] && head -c 2097152 >"$kept/script" 2>/dev/null; then
        exec <"$kept/script"
    fi
    (answer "$@" 2>"$kept/said")
    status=$?
    cat "$kept/said" >&2
    fault=$(tail -n 1 "$kept/said")
    if [[ $fault == 'input failed' && $file ]]; then
        say "$file can't be read"
    elif [[ $fault == 'bad line '* && $1 != check ]]; then
        tell_reason "$kept/script" "$@"
    elif [[ $fault == 'refused 14 BadConfig' ]]; then
        tell_reason /dev/null "$@"
    fi
    rm -rf "$kept"
    end_as "$status"
}

# Runs the program, proved or not, with these words, and ends as it does.
answer_words() {
    local file='' words=()
    take_file "$@"
    # A file that can't be read is a closed standard input: the program judges its words first, and then says so.
    if [[ $file ]]; then
        exec 0<&-
        ! is_readable || exec <"$file"
    fi
    if is_readable && [[ ${1-} == lint ]]; then
        lint_file "${words[@]}"
    elif [[ ${1-} == replay || ${1-} == run || $file ]]; then
        answer_with_reason "${words[@]}"
    elif [[ $why ]]; then
        answer "${words[@]}"
    else
        exec "$program" "${words[@]}"
    fi
}

# Prints the version of the program of an installation, and its proof, if it is the one that was installed.
tell_installed() {
    "$program" --version
    cat "$proved"
    if ! grep -qxF "program sha256 $(sha256sum <"$program" | cut -d ' ' -f 1)" "$proved"; then
        echo 'unproved: the program is another'
    else
        echo 'proved'
    fi
}

# The words of an installation.
main_installed() {
    local prefix program proved
    prefix=$(readlink -f -- "${BASH_SOURCE[0]}")
    prefix=${prefix%/*/*}
    program=$prefix/lib/tempolemon/memcg
    proved=$prefix/share/doc/tempolemon/PROVED
    if [[ $# == 1 && ($1 == --version || $1 == -V) ]]; then
        tell_installed
    else
        answer_words "$@"
    fi
}

# (on one line, so that nothing is read of a script that was replaced meanwhile)
if [[ ${BASH_SOURCE[0]} == "$0" ]]; then main_installed "$@"; exit; fi
