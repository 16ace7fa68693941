#!/bin/sh
# Runs the program with the words given, as `./r3 STORE run FUNCTIONS < SCRIPT`.
# Where it isn't built, or is older than its sources, it is proved and built first; that is told on standard error.
here=$(cd "$(dirname "$0")" && pwd)
crate=$here/crates/r3_cli
program=$crate/out/r3_cli

is_old() {
    [ ! -x "$program" ] || [ -n "$(find "$here/crates.txt" "$here"/crates/*/src "$here"/crates/*/specs \
        "$here"/crates/*/proofs -newer "$program" -print -quit 2>/dev/null)" ]
}

if is_old; then
    if ! command -v rt >/dev/null; then
        echo "r3: the command 'rt' of the toolchain is needed to prove and build the program" >&2
        exit 70
    fi
    echo "r3: proving and building the program; from nothing this takes an hour or more" >&2
    # Run without words, the program answers that they are no command.
    line=$(cd "$crate" && rt run -- </dev/null)
    if [ "$line" != '{"fault":"usage"}' ] || [ ! -x "$program" ]; then
        echo "r3: the program wasn't built; see above" >&2
        exit 70
    fi
    # It stands as it was where only tests have changed.
    touch "$program"
    echo "r3: built" >&2
fi
exec "$program" "$@"
