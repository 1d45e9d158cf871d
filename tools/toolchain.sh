# shellcheck shell=bash
# What building needs, for the scripts that read this file: the programs on the path, the pinned toolchain, and what is said.

# say TEXT: one line of a script.
say() {
    printf 'circmon: %s\n' "$*" >&2
}

# programs_needed: one line for each program that is not on the path, and status 1.
programs_needed() {
    local missing=0 program what
    while read -r program what; do
        if ! command -v "$program" > /dev/null; then
            say "$program is not on the path: $what is needed to build"
            missing=1
        fi
    done << 'PROGRAMS'
rt the Rattle toolchain
cargo Cargo, the builder of Rust,
cc a C compiler
PROGRAMS
    return "$missing"
}

# version_compared ROOT: a warning where rt is not the version that toolchain.txt pins.
version_compared() {
    local found pinned
    found=$(rt version 2>&1)
    pinned=$(cat "$1/toolchain.txt")
    if [ "$found" != "$pinned" ]; then
        say "warning: the toolchain is '$found', and toolchain.txt pins '$pinned'"
    fi
}

# said LOG: rt's own lines, without those of what is proved. The line '== NAME', behind which errors name files of that
# crate, stands before the first line that is left of it.
said() {
    awk '
        /^== / { head = $0; next }
        /: proved$/ || /^checked .*, [0-9]+ of [0-9]+$/ || /^logic / || /^logic=proved / || /^only=/ { next }
        /^(statements|library|crate) .*: modules loaded=/ || /^axioms / || /^linked / || /^[^ ]+: ok$/ { next }
        /^rt: chose / || /^rt: [^ ]+: begins with what a check kept in / { next }
        head != "" { print head; head = "" }
        { print }' "$1"
}

# placed FILE PLACE: copies the file there, whole or not at all.
placed() {
    mkdir -p "$(dirname "$2")" && cp "$1" "$2.$$" && mv -f "$2.$$" "$2" && return
    rm -f "$2.$$"
    return 1
}
