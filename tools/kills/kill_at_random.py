#!/usr/bin/env python3
"""Kills the program at random moments, again and again, and tests what is left.

usage: kill_at_random.py PROGRAM [KILLS [SEED]]

A script of transfers, each with a call of a service, is given to the program from its first line on in each run. Tested
are, in each run: a request that was answered before gets the same reply; a call whose step is recorded isn't made
again. And at the end: each transfer is done, and each account holds what the transfers make of it, each once.

It isn't part of the gate, as its moments are random. A killed program is no failed disk: the system still writes what
it was handed.
"""
import json
import os
import random
import subprocess
import sys
import tempfile
import threading
import time

FUNCTIONS = """
table account;
outside notify(to, cents);
txn move(from, to, cents) {
  let have = get account[from];
  put account[from] = have - cents;
  let had = get account[to];
  put account[to] = had + cents;
  return cents;
}
flow transfer(from, to, cents) {
  let moved = call move(from, to, cents);
  let number = call notify(to, moved);
  return number;
}
"""
ACCOUNTS = 8
TRANSFERS = 30


def transfers(draw):
    for number in range(TRANSFERS):
        giver, taker = draw.sample(range(ACCOUNTS), 2)
        yield f"t{number}", [f"a{giver}", f"a{taker}", draw.randint(1, 100)]


def script(wanted):
    """The requests, from the first on."""
    for number, (name, args) in enumerate(wanted):
        yield {"start": name, "fn": "transfer", "args": args}
        if number % 5 == 4:
            yield {"drain": 1000}
    yield {"drain": 100000}
    for name, _ in wanted:
        yield {"status": name}
    for number in range(ACCOUNTS):
        yield {"get": "account", "key": f"a{number}"}


class Service(threading.Thread):
    """Answers the calls of one run through a pipe, each with its number in the order of all calls."""

    def __init__(self, store, calls):
        super().__init__(daemon=True)
        self.place = os.path.getsize(store + ".out") if os.path.exists(store + ".out") else 0
        self.store, self.calls, self.ended = store, calls, False
        if os.path.exists(store + ".in"):
            os.unlink(store + ".in")
        os.mkfifo(store + ".in")
        self.pipe = os.open(store + ".in", os.O_RDWR)

    def run(self):
        part = b""
        while not self.ended:
            read = b""
            if os.path.exists(self.store + ".out"):
                with open(self.store + ".out", "rb") as file:
                    file.seek(self.place)
                    read = file.read()
            self.place += len(read)
            *lines, part = (part + read).split(b"\n")
            for line in lines:
                call = json.loads(line)
                self.calls.append((call["id"], call["n"]))
                os.write(self.pipe, b'{"value":%d}\n' % len(self.calls))
            if not read:
                time.sleep(0.0005)

    def end(self):
        self.ended = True
        self.join()
        os.close(self.pipe)


def run(program, store, functions, requests, calls, seconds):
    """One run, killed after so many seconds where these are told. Gives its whole replies, and whether it ended by itself."""
    service = Service(store, calls)
    service.start()
    with open("replies", "wb") as replies:
        started = subprocess.Popen([program, store, "run", functions], stdin=subprocess.PIPE, stdout=replies)
        feeder = threading.Thread(target=feed, args=(started.stdin, requests), daemon=True)
        feeder.start()
        try:
            status = started.wait(seconds)
        except subprocess.TimeoutExpired:
            started.kill()
            started.wait()
            status = None
        feeder.join()
    service.end()
    if status not in (None, 0):
        sys.exit(f"the program ended with status {status}")
    with open("replies", "rb") as replies:
        *whole, _ = replies.read().split(b"\n")
    return [json.loads(it) for it in whole], status == 0


def feed(pipe, requests):
    try:
        for it in requests:
            pipe.write((json.dumps(it) + "\n").encode())
        pipe.close()
    except BrokenPipeError:
        pass


def main():
    program = os.path.abspath(sys.argv[1])
    kills = int(sys.argv[2]) if len(sys.argv) > 2 else 40
    draw = random.Random(int(sys.argv[3]) if len(sys.argv) > 3 else 7)
    wanted = list(transfers(draw))
    requests = list(script(wanted))
    with tempfile.TemporaryDirectory() as work:
        os.chdir(work)
        with open("transfer.fn", "w", encoding="utf-8") as file:
            file.write(FUNCTIONS)
        load = {"load": "account", "rows": {f"a{it}": 1000 for it in range(ACCOUNTS)}}
        calls, ended = [], set()
        began = time.monotonic()
        run(program, "store", "transfer.fn", [load], calls, None)
        # how late a kill may come: later and later, until a run gets through
        first, killed, batch, longest = {}, 0, 1, 2 * (time.monotonic() - began)
        while True:
            last = killed >= kills
            began, before = time.monotonic(), len(calls)
            replies, whole = run(program, "store", "transfer.fn", requests, calls, None if last else draw.uniform(0, longest))
            again = [it for it in calls[before:] if it in ended]
            if again:
                sys.exit(f"a recorded call was made again: {again[0]}")
            for request, reply in zip(requests, replies):
                if "start" in request and first.setdefault(request["start"], reply) != reply:
                    sys.exit(f"{request['start']} is answered {reply}, and was answered {first[request['start']]}")
                if "status" in request and reply["status"] == "SUCCESS":
                    ended.add((request["status"], 1))
            if last:
                break
            killed += not whole
            longest *= 1.1
            if whole:
                # All is done: more transfers, under new IDs.
                longest = 1.2 * (time.monotonic() - began)
                batch += 1
                wanted += [(f"{name}-{batch}", args) for name, args in transfers(draw)]
                requests = list(script(wanted))
        balances = {f"a{it}": 1000 for it in range(ACCOUNTS)}
        for _, (giver, taker, cents) in wanted:
            balances[giver] -= cents
            balances[taker] += cents
        for request, reply in zip(requests, replies):
            if "status" in request and reply["status"] != "SUCCESS":
                sys.exit(f"{request['status']} has come to {reply}")
            if "get" in request and reply != {"value": balances[request["key"]]}:
                sys.exit(f"{request['key']} has {reply}, and should have {balances[request['key']]}")
        print(f"killed {killed} times: {len(wanted)} transfers done once each, by {len(calls)} calls; {os.path.getsize('store')} bytes")


if __name__ == "__main__":
    main()
