# For the scripts under tests/, which source it: a folder for their files, and a count of what passed and what failed.
#   . "$(dirname "$0")/../lib.sh"
# shellcheck shell=bash

# Gone when the script ends.
work=$(mktemp -d)
trap 'rm -rf "$work"' EXIT
passed=0
failed=0

pass() {
    passed=$((passed + 1))
}

# What failed, and the beginning of files that tell more.
fail() { # WHAT [FILE..]
    failed=$((failed + 1))
    echo "failed: $1" >&2
    shift
    [ $# = 0 ] || head -n 20 "$@" >&2
}

# By the status of a command.
try() { # WHAT COMMAND WORD..
    local what=$1
    shift
    if "$@"; then pass; else fail "$what"; fi
}

# By two texts.
same() { # WHAT GOT EXPECTED
    if [ "$2" = "$3" ]; then pass; else fail "$1: got '$2', expected '$3'"; fi
}

# The programs that people use: all but those of cases. `qsm`, which has the commands under one name, is made by `command/build`.
programs() { # TREE
    local main name
    for main in "$1"/crates/*/src/main.rt; do
        name=${main#"$1/crates/"}
        name=${name%%/*}
        [[ $name == cases_* || $name == *_main ]] || echo "$name"
    done
}

# The last line of a script, and its status: something was tried and nothing failed.
finish() { # [MORE]
    echo "$passed passed, $failed failed${1:-}"
    [ "$failed" = 0 ] && [ "$passed" -gt 0 ]
}
