# shellcheck shell=sh
# What stands in front of the proved program, here and where it is installed: help, plain words on a source that is
# refused, hints. Nothing is added to what the program prints on standard output. The script that reads this file says
#
#     program     where the proved program is
#     share       the folder of this file
#     guide       where the guide is
#     revision    which text the program is made from, if that is known
: "${program:?}" "${share:?}" "${guide:?}"

# The program's own line, and its own limits, for what is told before there is a program.
usage='usage: pasask SOURCE [--input F] [--budget N] [--load F]'
source_bytes=1048576
input_bytes=4194304
session_bytes=67108864
console_bytes=16777216
most_steps=4000000

# Ends with a text on standard output, and a status: `end_with STATUS TEXT`. A screen that fails is status 6, as it is
# where the program prints; so a closed pipe may not end this script.
end_with() {
    trap '' PIPE
    printf '%s\n' "$2" 2>/dev/null || exit 6
    exit "$1"
}

# Answers what needs no program, where the first word asks for it.
answer_at_once() {
    case ${1-} in
        -h | --help) end_with 0 "$(cat "$share/help.txt" && printf '\nThe guide: %s\n' "$guide")" ;;
        --version) end_with 0 "pasask, not released yet${revision:+, revision $revision}" ;;
    esac
}

# ---- the words

# Keeps the value of an option: `take_option NAME VALUE`. It fails where the option was given before.
take_option() {
    case $given in *" $1 "*) return 1 ;; esac
    given="$given$1 "
    case $1 in
        --input) input=$2 ;;
        --budget) budget=$2 ;;
        --load) load=$2 ;;
    esac
}

# Whether this may stand after an option: a word that begins with a hyphen and goes on is an option itself.
is_value() {
    case $1 in -?*) return 1 ;; esac
}

# Whether the budget is spelled as it should be.
is_budget() {
    case $1 in '' | *[!0123456789]* | ????????*) return 1 ;; esac
    [ "$1" -ge 1 ] && [ "$1" -le "$most_steps" ]
}

# Whether the source is a made program, whose number is spelled as it should be, with no option beside it.
is_made() {
    [ "$given" = ' ' ] || return 1
    case $source in make:[123456789] | make:1[01234]) ;; *) return 1 ;; esac
}

# Reads the words of the command as the program does, and fails where it would refuse them. It sets `source`, `given` to
# the options that there are, between blanks, `input`, `budget` and `load` to their values, and `path` to the path of the
# source, which no command takes for an option; it is empty for a made program.
read_words() {
    source='' path='' given=' ' input='' budget=1 load='' sources=0 may_be_option=yes
    while [ $# -gt 0 ]; do
        case $may_be_option$1 in
            yes--) may_be_option=no ;;
            yes--input=* | yes--budget=* | yes--load=*) take_option "${1%%=*}" "${1#*=}" || return 1 ;;
            yes--input | yes--budget | yes--load)
                if [ $# -lt 2 ] || ! is_value "$2" || ! take_option "$1" "$2"; then return 1; fi
                shift
                ;;
            yes-?*) return 1 ;;
            *) source=$1 sources=$((sources + 1)) ;;
        esac
        shift
    done
    [ "$sources" = 1 ] && is_budget "$budget" || return 1
    case $source in
        make:*) is_made || return 1 ;;
        /*) path=$source ;;
        *) path=./$source ;;
    esac
}

# ---- before there is a program

# Whether all words are UTF-8, as the program wants them. Without iconv they are taken to be. (UTF-16 has no more
# characters than there are, and so tells those that are none.)
are_text() {
    command -v iconv >/dev/null || return 0
    printf '%s ' "$@" | iconv -f UTF-8 -t UTF-16LE >/dev/null 2>&1
}

# Sets `fault` to why a file can't be fetched, or to nothing where it can or where that is not known beforehand:
# `look_at NAME PATH BYTES`. To open a name that is not there tells why: only an absent file is called so.
look_at() {
    fault=''
    if [ -z "$1" ]; then
        fault=absent
    elif [ ! -e "$2" ]; then
        case $(LC_ALL=C cat "$2" 2>&1 >/dev/null) in
            *': No such file or directory') fault=absent ;;
            *) fault=failed ;;
        esac
    elif [ -d "$2" ] || [ ! -r "$2" ]; then
        fault=failed
    elif [ -f "$2" ] && [ "$(wc -c <"$2")" -gt "$3" ]; then
        fault='too long'
    fi
}

# Warns of a file that can't be fetched: `warn_of OPTION NAME BYTES`. It is no more than a warning, since the program
# looks for this file only once the source is accepted.
warn_of() {
    case $given in *" $1 "*) ;; *) return 0 ;; esac
    case $2 in
        /*) look_at "$2" "$2" "$3" ;;
        *) look_at "$2" "./$2" "$3" ;;
    esac
    [ -z "$fault" ] || echo "pasask: the file after $1 is no use: $fault $2" >&2
}

# Ends as the program would where these words can't be meant: they are no command, or there is no such source.
refuse_unmeant() {
    if ! are_text "$@" || ! read_words "$@"; then end_with 2 "$usage"; fi
    case $source in make:*) return 0 ;; esac
    look_at "$source" "$path" "$source_bytes"
    [ -z "$fault" ] || end_with 4 "file: $fault $source"
    warn_of --input "$input" "$input_bytes"
    warn_of --load "$load" "$session_bytes"
}

# ---- a source that is refused

# Says in a sentence, on standard error, why the source is refused: `explain SCREEN`. Where the table of sentences is
# not there, the line that the program printed has to do.
explain() {
    if [ ! -r "$share/refusals.tsv" ] || [ ! -r "$share/refusal.awk" ]; then return 0; fi
    copy=$(mktemp 2>/dev/null) || return 0
    printf '%s\n' "$1" >"$copy"
    # awk reads backslashes of a value as escapes
    name=$(printf '%s\n' "$source" | sed 's/\\/&&/g')
    LC_ALL=C awk -f "$share/refusal.awk" -v name="$name" "$share/refusals.tsv" "$path" "$copy" >&2
    rm -f "$copy"
}

# Where the source is refused, lets the program say so, explains it, and ends. To learn that, the program reads the
# source alone, and takes one step at most; so it is known before the console is read, and the run itself can be left to
# the program, with all signals and streams its own.
explain_if_refused() {
    screen=$("$program" --budget 1 -- "$source" </dev/null 2>/dev/null)
    status=$?
    [ "$status" = 3 ] || return 0
    "$program" "$@"
    status=$?
    [ "$status" != 3 ] || explain "$screen"
    exit "$status"
}

# ---- hints

# Says that input does not come by the terminal, where the source reads some and none is named.
hint_at_input() {
    case $given in *' --input '*) return 0 ;; esac
    LC_ALL=C awk -f "$share/reads_input.awk" "$path" || return 0
    echo "pasask: this program reads input, and none is named: start with --input FILE. What you type here are answers." >&2
}

# Whether the lines of standard input are no commands: ten or more are none, and none is one.
are_no_commands() {
    LC_ALL=C awk -f "$share/no_commands.awk"
}

# Says at the end that input does not come by standard input: `hint_at_console STATUS`, where there was a dialog.
hint_at_console() {
    case $1 in 0 | 9) ;; *) return 0 ;; esac
    echo "pasask: no line of standard input was a command. What a program reads is named by --input FILE; pasask --help lists the commands." >&2
}

# Runs the program on a console that is a file. What is there is read beforehand, so this script stays only where it
# will have something to say.
run_on_file() {
    head -c "$console_bytes" /proc/self/fd/0 2>/dev/null | are_no_commands || exec "$program" "$@"
    "$program" "$@"
    status=$?
    hint_at_console "$status"
    exit "$status"
}

# Ends the program and what copies its console: `stop_asking SIGNAL-NUMBER`.
stop_asking() {
    kill "$asked" "$copier" 2>/dev/null
    rm -rf "$room"
    exit $((128 + $1))
}

# Runs the program on a console that is a pipe, of which a copy is kept as it goes by: a line is in the copy before the
# program has it. The streams that it prints on are its own.
run_on_pipe() {
    room=$(mktemp -d 2>/dev/null) || exec "$program" "$@"
    mkfifo "$room/console" || exec "$program" "$@"
    exec 3<&0
    tee "$room/console" <&3 >"$room/copy" 2>/dev/null 3<&- &
    copier=$!
    "$program" "$@" <"$room/console" 3<&- &
    asked=$!
    trap 'stop_asking 1' HUP
    trap 'stop_asking 2' INT
    trap 'stop_asking 15' TERM
    wait "$asked"
    status=$?
    # after `quit` the pipe may still be open
    kill "$copier" 2>/dev/null
    if are_no_commands <"$room/copy"; then hint_at_console "$status"; fi
    rm -rf "$room"
    exit "$status"
}

# ---- the run

# Runs the program on the words, in the place of this script unless something is to be said after it.
run_program() {
    if [ ! -x "$program" ]; then
        echo "pasask: there is no program $program" >&2
        exit 1
    fi
    # beyond a limit of file sizes a save fails and says so; its signal would end the dialog, and the copying of a pipe
    trap '' XFSZ 2>/dev/null || :
    # what is no plain file could be read only once
    if read_words "$@" && [ -f "$path" ]; then
        explain_if_refused "$@"
        if [ -t 0 ]; then
            hint_at_input
        elif [ -f /proc/self/fd/0 ]; then
            run_on_file "$@"
        elif [ -p /proc/self/fd/0 ]; then
            run_on_pipe "$@"
        fi
    fi
    exec "$program" "$@"
}
