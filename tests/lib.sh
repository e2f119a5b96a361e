# shellcheck shell=bash
# What the tests share. A run begins with it: . "$(dirname "$0")/../lib.sh"
# It goes to the root of the repository and makes $room, a folder for the run alone, which is gone when the run ends.
export LC_ALL=C
self=$(basename "$(dirname "$(readlink -f "$0")")")
cd "$(dirname "${BASH_SOURCE[0]}")/.."
room=$(mktemp -d)
trap 'rm -rf "$room"' EXIT
compared=0

# Ends the test with a message, and with what the last call said on standard error.
fail() { # MESSAGE
    echo "$self: $1" >&2
    [ ! -s "$room/err" ] || cat "$room/err" >&2
    exit 1
}

# Ends the test unless a text is the expected one.
equal() { # WHAT EXPECTED FOUND
    compared=$((compared + 1))
    [ "$2" = "$3" ] || fail "$1: expected:"$'\n'"$2"$'\n'"found:"$'\n'"$3"
}

# Ends the test unless a file has the expected bytes, with the first lines that differ.
same() { # WHAT EXPECTED FOUND
    compared=$((compared + 1))
    diff -a "$2" "$3" >"$room/differences" 2>&1 && return
    echo "$self: $1: the first difference, < as expected and > as found:" >&2
    awk '!/^[0-9-]/ && !seen[substr($0, 1, 1)]++' "$room/differences" >&2
    exit 1
}

# Ends the test unless some programs are proved and built.
built() { # PROGRAM..
    local program made
    for program in "$@"; do
        made=$(tools/made program "$program")
        [ -x "$made" ] || fail "$made is not there: tools/build $program"
    done
}

# Runs a proved program on standard input.
proved() { # PROGRAM [WORD..]
    tools/x86 "$(tools/made program "$1")" "${@:2}"
}

# Calls a command: $status is its status, $room/out and $room/err have what it says.
call() { # COMMAND..
    status=0
    "$@" >"$room/out" 2>"$room/err" || status=$?
}

# Compiles C for this machine; every warning is an error.
compile() { # ARGUMENT.. (gcc's)
    tools/need gcc
    gcc -std=c11 -Wall -Wextra -Werror "$@"
}

# Prints a header from a file with a card a line.
header() { # CARDS
    local card
    while IFS= read -r card; do
        printf '%-80s' "$card"
    done <"$1"
}

# Prints a header with as many comments behind it as make so many cards.
lengthened() { # HEADER CARDS
    cat "$1"
    yes "$(printf '%-80s' C0001)" | tr -d '\n' | head -c $(($2 * 80 - $(stat -c %s "$1"))) || true
}
