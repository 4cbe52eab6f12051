# What the tests in bash share, sourced by each: the top of the repository is where they stand, $work is a folder of theirs, and what passes is counted.
# shellcheck shell=bash
set -u
cd "$(dirname "${BASH_SOURCE[0]}")/.." || exit 1
work=$(mktemp -d)
trap 'rm -rf "$work"' EXIT
passed=0 failed=0

pass() {
    passed=$((passed + 1))
}

# fail WORDS: one that failed
fail() {
    echo "failed: $1"
    failed=$((failed + 1))
}

# try NAME COMMAND..: passes where the command does; what it said is shown where it does not
try() {
    local name=$1
    shift
    if "$@" >"$work/tried" 2>&1; then
        pass
    else
        fail "$name"
        head -n 20 "$work/tried"
    fi
}

# ended: the last line, with its status
ended() {
    echo "$passed passed, $failed failed"
    [ "$failed" -eq 0 ]
}
