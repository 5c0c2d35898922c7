# shellcheck shell=bash
# What the tests of the tools share. A test sources it behind common.sh, and sets `scratch`, a folder of its own.

# same WHAT EXPECTED FOUND
same() {
    [ "$2" = "$3" ] && return
    printf 'FAILED %s\n  expected: %q\n  found:    %q\n' "$1" "$2" "$3" | tee -a "${scratch:?}/failures"
}

# has WHAT PART FOUND: what was found has this part.
has() {
    [[ "$3" == *"$2"* ]] || same "$1" "..$2.." "$3"
}

# call COMMAND: its status, what it wrote, and what it said on standard error, in these three.
# shellcheck disable=SC2034
call() {
    status=0
    "$@" > "$scratch/wrote" 2> "$scratch/said" || status=$?
    wrote=$(cat "$scratch/wrote")
    said=$(cat "$scratch/said")
}

# Ends the test: it fails if anything above did.
end_checks() {
    [ ! -e "$scratch/failures" ] || fail "$(grep -c ^FAILED "$scratch/failures") failed"
    echo "${tool:?}: all passed"
}
