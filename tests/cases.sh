# shellcheck shell=bash
# Sourced by tests of scripts. Gives a folder of their own, `room`, that is removed in the end, and what counts and
# compares cases, under the name of the test.
suite=${0##*/}
room=$(mktemp -d)
trap 'rm -rf "$room"' EXIT
cases=0
wrong=0

# same LABEL EXPECTED GOT
same() {
    cases=$((cases + 1))
    [ "$2" = "$3" ] && return
    wrong=$((wrong + 1))
    printf '%s, %s: expected\n%s\nand got\n%s\n' "$suite" "$1" "$2" "$3" >&2
}

# case_of LABEL STATUS OUT SAID COMMAND..: exit status, and all lines of standard output and of standard error
case_of() {
    local label=$1 expected status=0
    expected="status $2"$'\n'"${3:+$3$'\n'}and on standard error"$'\n'"${4:+$4$'\n'}."
    shift 4
    "$@" >"$room/.out" 2>"$room/.said" || status=$?
    same "$label" "$expected" "$(echo "status $status"; cat "$room/.out"; echo "and on standard error"; cat "$room/.said"; echo .)"
}

# told: the line that ends a test, and its verdict
told() {
    echo "$suite: $cases cases, $wrong differ"
    [ "$wrong" -eq 0 ]
}
