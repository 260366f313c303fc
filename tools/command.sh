# Sourced by the commands of bin/. A command says its `usage`, has the program of a crate answer (`ask`), and
# prints what the answer is to look like. Status: 0; 1 if the list is refused; 2 if there was nothing to run.
# shellcheck shell=bash
set -euo pipefail
# shellcheck source=tools/common.sh
. "$(dirname "$(readlink -f "${BASH_SOURCE[0]}")")/common.sh"

# Leaves in $workroom/answer what the program of the crate prints for the list that the command's words name.
ask() { # PROGRAM WORDS...
    take_words "${@:2}"
    make_workroom
    take_list
    answer "$1" "$workroom/list"
}

# Takes the command's words: sets `given` to the file, or to nothing for standard input.
take_words() { # WORDS...
    case ${1:-} in
    -h | --help) usage; exit 0 ;;
    -) shift ;;
    -*) usage >&2; die "there is no option '$1'" ;;
    esac
    [ $# -le 1 ] || { usage >&2; die "one file at a time"; }
    given=${1:-}
    [ -n "$given" ] || return 0
    [ -e "$given" ] || die "$given: no such file"
    [ ! -d "$given" ] || die "$given: a directory, and neither a list nor its text"
    [ -r "$given" ] || die "$given: cannot be read"
}

# Leaves the list's bytes in the workroom, whether a list or its text was given.
take_list() {
    need_tool scribe
    scribe take ${given:+"$given"} >"$workroom/list" 2>"$workroom/said" ||
        die "${given:-standard input}: $(sed 's/^scribe: //' "$workroom/said")"
}

scribe() { "$root/target/scribe" "$@"; }

# Proves and builds the program on first use, and leaves in $workroom/answer what it prints for the bytes of a
# file. For tests of the commands alone, the command in STAND_IN is handed the program's name and answers.
answer() { # PROGRAM INPUT
    if [ -n "${STAND_IN:-}" ]; then
        say "not the proved program: $STAND_IN stands in for it"
        "$STAND_IN" "$1" <"$2" >"$workroom/answer" || die "$STAND_IN ended with status $?"
        return
    fi
    need_program "$1"
    find_emulator
    run_program "$1" <"$2" >"$workroom/answer" || die "the program $1 ended with status $?"
}

# Ends with status 1 if the list was refused, and says why.
end_if_refused() {
    local first
    read -r first <"$workroom/answer" || die "the program printed nothing"
    case $first in
    refused*)
        say "${given:-standard input}: $(scribe words "$workroom/answer")"
        exit 1
        ;;
    esac
}
