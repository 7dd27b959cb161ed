# What the commands that prove and build share: one build at a time, and what a person sees meanwhile. To be sourced, with the
# command's name in `me` and the repository's folder in `root`.

# Says a line to the person who waits.
tell() {
    printf '%s: %s\n' "$me" "$*" >&2
}

# about WHAT: how long the gate ('gate') or all the crates ('crates') take, by the last row of docs/TIMES.md.
about() {
    [ -r "$root/docs/TIMES.md" ] || { echo 'some minutes'; return; }
    awk -F ' *[|] *' -v what="$1" '
        $2 == "landing" { for (i = 3; i < NF; i++) name[i] = $i }
        $3 ~ /^[0-9]+$/ { gate = crates = 0; for (i = 3; i < NF; i++) if (name[i] == "gate") gate = $i; else if (name[i] != "edits") crates += $i }
        END {
            minutes = int(((what == "gate" ? gate : crates) + 59) / 60)
            print minutes == 0 ? "some minutes" : "about " minutes (minutes == 1 ? " minute" : " minutes") " on two cores"
        }' "$root/docs/TIMES.md"
}

# The version of the interface, as the C header has it.
interface_version() {
    sed -n 's/^#define HORNHERDER_VERSION //p' "$root/bindings/c/hornherder.h"
}

# lock FOLDER: waits until no other run holds the folder, and holds it until this shell ends. Sets `waited` where it had to wait.
lock() {
    waited=
    command -v flock >/dev/null || { tell 'flock, which keeps two builds apart, is not on this machine'; exit 2; }
    exec 9<"$1" || exit 2
    flock --nonblock 9 && return
    waited=yes
    tell 'another run builds, and this one waits for it'
    flock 9
}

# The folder of the toolchain that rt belongs to.
kit() {
    dirname "$(rt doc </dev/null)"
}

# The first place that a build writes and whoever runs this may not: where a folder is not there yet, the one that it would stand in.
closed_place() {
    local place
    for place in "$root/target" "$root"/crates/*/; do
        [ "$place" = "$root/target" ] || place+=out
        if [ -e "$place" ]; then
            find "$place" ! -writable -print -quit 2>/dev/null
        else
            find "${place%/*}" -maxdepth 0 ! -writable
        fi
    done | head -1
}

# may_build: ends with the reason where nothing can be proved and built in this copy of the repository.
may_build() {
    local closed
    command -v rt >/dev/null || { tell 'it must be built first, and rt, which proves and builds it, is not on this machine'; exit 2; }
    if ! "$(kit)/bin/rattle" --help >/dev/null 2>&1; then
        tell "it must be built first, and the prover that comes with rt, a program for x86-64, does not run on this machine ($(uname -m))"
        exit 2
    fi
    closed=$(closed_place) || true
    [ -n "$closed" ] || return 0
    tell "it must be built first, and $(id -un) may not write $closed: let its owner build it, or build in a copy of your own"
    exit 2
}

# is_older FILE: whether a file that was built is not there, or older than a source of the crates. What rt leaves in their folders out/
# is no source.
is_older() {
    [ ! -e "$1" ] || [ -n "$(find "$root/crates" "$root/crates.txt" -name out -prune -o -newer "$1" -type f -print -quit 2>/dev/null)" ]
}

# shown WORDS..: runs a command of rt and says each crate as it is proved: rt names it, counts what it read, and then gives the verdict.
# All that the command said is shown where it fails.
shown() {
    local line crate= said= began=$SECONDS
    while IFS= read -r line; do
        said+=$line$'\n'
        case $line in
        'crate '*': '*) crate=${line#crate } && crate=${crate%%:*} ;;
        'logic=proved '*) tell "$crate proved ($((SECONDS - began)) s)" && began=$SECONDS ;;
        esac
    done < <("$@" </dev/null 2>&1)
    wait $! && return
    printf '%s' "$said" >&2
    tell "failed: $*"
    return 1
}
