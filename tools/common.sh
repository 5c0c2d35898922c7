# shellcheck shell=bash
# What the shell tools of tools/ and bench/ share. A tool sources it by its own path with links resolved, so that a symlink to
# the tool finds it too:
#
#     . "$(dirname "$(readlink -f "$0")")/common.sh"
#
# It sets `root`, the repository's folder, and `tool`, the tool's name in messages. The tool sets `usage`.

# With CDPATH set, cd may go elsewhere, and writes where it went.
unset CDPATH
# What fails in a command substitution ends the tool too.
shopt -s inherit_errexit

root=$(dirname "$(dirname "$(readlink -f "${BASH_SOURCE[0]}")")")
tool=$(readlink -f "$0")
tool=${tool#"$root/"}

# fail MESSAGE: ends the tool, which cannot do what it was asked for.
fail() {
    echo "$tool: $1" >&2
    exit 1
}

# Ends a tool that was called wrongly.
wrong_call() {
    echo "${usage:?}" >&2
    exit 2
}

# answer_help "$@": the usage is an answer where it was asked for.
answer_help() {
    case "${1-}" in
        -h | --help)
            echo "${usage:?}"
            exit 0
            ;;
    esac
}

# The folder of the Rattle kit.
kit() {
    command -v rt > /dev/null || fail "the Rattle kit's command, rt, is not on PATH: add the kit's folder bin to it"
    echo "${RATTLE_HOME:-$(dirname "$(dirname "$(readlink -f "$(command -v rt)")")")}"
}

# A digest of all that rt makes a file from: the kit, the list of the crates, and each of their files by name and content, but for
# what rt itself keeps in out/.
sources() {
    (
        cd "$root" || exit
        rt version
        find crates.txt crates -regex 'crates/[^/]*/out' -prune -o -type f -print0 | LC_ALL=C sort -z | xargs -0 sha256sum
    ) | sha256sum
}

# make_proved FILE CRATE COMMAND: has FILE made by `rt COMMAND` in the crate's folder unless it stands as these sources gave it.
# target/made/ keeps their digest, and FILE's own, since rt may have been called by hand with other sources in between.
#
# rt has no command that builds a program and runs nothing: `rt run` runs it too, here on no input. What it writes then, and with
# which status it ends, says nothing of how it was made. That says the file alone, which is removed first.
make_proved() {
    local file=$1 crate=$2 command=$3 made=$root/crates/$2/out/$2 record sources
    [ "$command" != lib ] || made=$root/crates/$crate/out/lib$crate.a
    record=$root/target/made/${file##*/}
    kit > /dev/null
    sources=$(sources)
    if [ -e "$file" ] && [ "$sources $(sha256sum < "$file")" = "$(cat "$record" 2> /dev/null)" ]; then
        return
    fi
    echo "$tool: making ${file#"$root/"} anew: rt $command proves crate $crate and those that it needs" >&2
    mkdir -p "${record%/*}" "${file%/*}"
    rm -f "$record" "$made"
    (cd "$root/crates/$crate" && rt "$command" < /dev/null > "$record.log" 2>&1) || true
    if [ ! -e "$made" ]; then
        cat "$record.log" >&2
        fail "rt $command made no ${made#"$root/"}"
    fi
    [ "$made" = "$file" ] || cp "$made" "$file"
    echo "$sources $(sha256sum < "$file")" > "$record"
}

# run_program PROGRAM WORDS: runs a program of the kit, which is for x86-64. On another processor the kit's emulator runs it, with the
# kit's loader and C library.
run_program() {
    local toolchain
    if [ "$(uname -m)" = x86_64 ]; then
        "$@"
    else
        toolchain=$(kit)/on/$(uname -m)/toolchain
        "$toolchain/bin/qemu-x86_64" "$toolchain/lib/ld-linux-x86-64.so.2" --library-path "$toolchain/lib" "$@"
    fi
}

# executed PROGRAM WORDS: how many instructions a program for x86-64 executes. An emulator makes a block of each, and writes a line of
# its log.
executed() {
    if [ "$(uname -m)" != x86_64 ]; then
        qemu-x86_64 -singlestep -d exec,nochain -D /dev/stdout "$@" | grep -c '^Trace [0-9]'
        return
    fi
    command -v valgrind > /dev/null || fail "the Debian package valgrind is missing"
    local counts
    counts=$(mktemp)
    valgrind --tool=callgrind --callgrind-out-file="$counts" "$@" > /dev/null 2>&1
    sed -n 's/^totals: //p' "$counts"
    rm "$counts"
}

# each UNITS FEW MANY PROGRAM WORDS: the instructions of a unit, of which the program has so many more with MANY behind its words than with FEW.
each() {
    local few many
    few=$(executed "${@:4}" "$2") || return
    many=$(executed "${@:4}" "$3") || return
    awk -v n=$((many - few)) -v units="$1" 'BEGIN { printf "%.0f", n / units }'
}
