# What the examples share. Each is called as `run [PROGRAM [FOLDER]]`: the program's path, or `./r3` of this repository,
# and the folder to work in, or one that is removed at the end.

set -eu
here=$(cd "$(dirname "$0")" && pwd)
program=${1:-$here/../../r3}
program=$(cd "$(dirname "$program")" && pwd)/$(basename "$program")
folder=${2:-}
service=

tidy_up() {
    end_service
    if [ -z "$folder" ]; then rm -rf "$work"; fi
}

if [ -z "$folder" ]; then work=$(mktemp -d); else mkdir -p "$folder"; work=$(cd "$folder" && pwd); fi
trap tidy_up EXIT
cd "$work"

title() {
    printf '\n== %s\n' "$1"
}

# answer STORE FUNCTIONS SCRIPT: runs a script, and shows each line with its reply below.
answer() {
    "$program" "$1" run "$here/$2" < "$here/$3" > replies || echo "status $?"
    sed 's/^/> /' "$here/$3" | paste -d '\n' - replies
}

# wait_for WHAT FILE COUNT: waits until the file has so many lines, up to a minute.
wait_for() {
    tries=0
    while [ ! -e "$2" ] || [ "$(wc -l < "$2")" -lt "$3" ]; do
        tries=$((tries + 1))
        if [ "$tries" -gt 1200 ]; then echo "no $1 came" >&2; exit 1; fi
        sleep 0.05
    done
}

# begin STORE FUNCTIONS: starts the program, with a script that is handed to it line by line.
begin() {
    rm -f script
    mkfifo script
    : > replies
    "$program" "$1" run "$here/$2" < script > replies &
    pid=$!
    exec 9> script
    sent=0
}

# hand LINE: hands the program one more line.
hand() {
    echo "> $1"
    echo "$1" >&9
}

# tell LINE: hands the program one more line, and shows its reply.
tell() {
    hand "$1"
    sent=$((sent + 1))
    wait_for "reply" replies "$sent"
    tail -n 1 replies
}

# crash: ends the program at once, wherever it is, as a failure of the machine would.
crash() {
    kill -9 "$pid"
    wait "$pid" 2> /dev/null || true
    exec 9>&-
}

# serve STORE WORD..: starts the service that answers the calls of the next run.
serve() {
    rm -f "$1.in"
    python3 "$here/../worker/worker.py" "$@" &
    service=$!
    tries=0
    while [ ! -p "$1.in" ]; do
        tries=$((tries + 1))
        if [ "$tries" -gt 1200 ]; then echo "the service didn't start" >&2; exit 1; fi
        sleep 0.05
    done
}

end_service() {
    if [ -n "$service" ]; then
        kill "$service" 2> /dev/null || true
        wait "$service" 2> /dev/null || true
        service=
    fi
}
