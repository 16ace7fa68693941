#!/bin/sh
# How long a store of 300,002 entries takes to open, beside what reading it and walking it takes in C.
#
#   tools/opening/measure.sh [ROUNDS]
#
# It isn't part of the gate. It needs rt, a C compiler and, for the number of instructions, valgrind. The program
# that opens the store is made in a copy of this repository, where its libraries are proved again unless their
# folders out/ came along. All runs alternate; the least time of each counts.
set -eu
here=$(cd "$(dirname "$0")" && pwd)
top=$(cd "$here/../.." && pwd)
rounds=${1:-7}
work=${OPENING_WORK:-/tmp/opening}
entries=300002

mkdir -p "$work"
cc -O2 -Wall -Wextra -o "$work/log" "$here/log.c"
cc -O2 -Wall -Wextra -DKEEP_TEXTS -o "$work/texts" "$here/log.c"
"$work/log" make "$work/store" $(((entries - 2) / 3))

program=$work/repository/crates/opening/out/opening
if [ ! -x "$program" ]; then
    mkdir -p "$work/repository/crates/opening/src"
    cp -a "$top/crates" "$top/crates.txt" "$top/HANDLES" "$work/repository/"
    echo "opening: r3_store r3_host r3_desk" >>"$work/repository/crates.txt"
    cat >"$work/repository/crates/opening/src/main.rt" <<'END'
//! Opens the store in the file `store`, and does nothing else.
#![tactic(auto)]

use r3_host::HostDesk;
use r3_store::Store;
use std::process::ExitCode;

fn main(rt: HostRuntime) -> ExitCode {
    let alloc = rt.alloc();
    let Ok(mut desk) = HostDesk::at(rt, alloc, "store") else {
        return ExitCode::from(3);
    };
    match Store::open(alloc, &mut desk) {
        Ok(store) => {
            if store.len() == 300_002 {
                ExitCode::SUCCESS
            } else {
                ExitCode::from(1)
            }
        }
        Err(_) => ExitCode::from(2),
    }
}
END
    (cd "$work/repository" && git init -q . && cd crates/opening && cp "$work/store" . && rt run)
fi

cd "$work"
python3 - "$rounds" "$work/log" "$program" <<'END'
import subprocess, sys, time

rounds, log, program = int(sys.argv[1]), sys.argv[2], sys.argv[3]
commands = {"walk": [log, "walk", "store"], "fields": [log, "fields", "store"],
            "texts": ["./texts", "fields", "store"], "open": [program]}
least = {}
for _ in range(rounds):
    for name, command in commands.items():
        start = time.perf_counter()
        subprocess.run(command, check=True, stdout=subprocess.DEVNULL)
        took = time.perf_counter() - start
        least[name] = min(took, least.get(name, took))
for name, took in least.items():
    print(f"{name:7} {1e3 * took:8.1f} ms   {took / least['walk']:5.1f} times walking")
END
if command -v valgrind >/dev/null; then
    for command in "log walk store" "log fields store" "texts fields store" "$program"; do
        case $command in /*) ;; *) command=./$command ;; esac
        count=$(valgrind --tool=callgrind --callgrind-out-file=/dev/null $command 2>&1 | sed -n 's/.*Collected : \([0-9]*\).*/\1/p')
        echo "$(basename "${command%% *}") ${command#* }: $((count / entries)) instructions an entry"
    done
fi
