# Sourced by the scripts of bin/, tests/ and bench/: where the repository is, and how what they need is made
# on first use. Every failure is one line on standard error and status 2.
# shellcheck shell=bash

root=$(cd -- "$(dirname -- "$(readlink -f "${BASH_SOURCE[0]}")")/.." >/dev/null && pwd -P)
self=$(basename "$0")

say() { printf '%s: %s\n' "$self" "$*" >&2; }
die() { say "$*"; exit 2; }

# A folder for what is not finished, removed at the end: nothing half written is left anywhere.
make_workroom() {
    workroom=$(mktemp -d) || die "no temporary folder can be made"
    trap 'rm -rf "$workroom"' EXIT
}

# Builds the Rust program tools/NAME/main.rs into target/NAME, unless it is there and no source is newer.
need_tool() { # NAME
    local made=$root/target/$1 source=tools/$1
    if [ -x "$made" ] && [ -z "$(find "$root/$source" -name '*.rs' -newer "$made" -print -quit)" ]; then return; fi
    command -v rustc >/dev/null || die "target/$1 is to be built from $source, and rustc is not on the PATH"
    say "building target/$1 from $source (some seconds, on first use)"
    mkdir -p "$root/target" || die "target/ cannot be made"
    # under another name first, so that a command started meanwhile never meets half a program
    rustc --edition 2021 -O -o "$made.$$" "$root/$source/main.rs" >&2 || die "rustc does not build $source"
    mv -f "$made.$$" "$made"
}

# Whether target/FILE is there and nothing in crates/ is newer, what rt itself leaves in crates/NAME/out aside (which gives crates/NAME a newer date).
is_made() { # FILE
    local made=$root/target/$1
    [ -e "$made" ] && [ -z "$(find "$root/crates" "$root/crates.txt" -name out -prune -o -type d -path "$root/crates/*" ! -path "$root/crates/*/*" -o -newer "$made" -print -quit 2>/dev/null)" ]
}

# Has rt prove the crate and build it by that word, and takes what it leaves in the crate's out/ to target/FILE, unless that is made.
need_proved() { # CRATE OUT FILE RT-WORD
    local made=$root/target/$3 log=$root/target/setup-$1.log
    if is_made "$3"; then return; fi
    command -v rt >/dev/null || die "target/$3 is to be proved and built, and rt is not on the PATH"
    say "proving and building $1 with rt (some minutes, on first use; rt's own words go to target/setup-$1.log)"
    mkdir -p "$(dirname "$made")" || die "target/ cannot be made"
    if ! (cd "$root/crates/$1" && rt "$4") </dev/null >"$log" 2>&1 || [ ! -e "$root/crates/$1/out/$2" ]; then
        tail -n 3 "$log" >&2
        die "rt $4 $1 failed"
    fi
    # under another name first, so that a command started meanwhile never meets half a program
    cp "$root/crates/$1/out/$2" "$made.$$" || die "target/$3 cannot be made"
    mv -f "$made.$$" "$made"
}

# rt runs what it builds: on no input, which each program answers and ends.
need_program() { # NAME, for target/bin/NAME
    need_proved "$1" "$1" "bin/$1" run
}

# The archive of a crate's calls for C, which the crate NAME_c exports.
need_archive() { # NAME, for target/staticlib/libNAME.a, which C links
    need_proved "$1_c" "lib$1_c.a" "staticlib/lib$1.a" lib
}

# Sets the words that go before a program to run it here.
find_emulator() {
    local words
    words=$("$root/tools/emulate") || exit 2
    emulator=()
    [ -z "$words" ] || mapfile -t emulator <<<"$words"
}

run_program() { # NAME WORDS..., its standard input and output being the caller's
    "${emulator[@]}" "$root/target/bin/$1" "${@:2}"
}
