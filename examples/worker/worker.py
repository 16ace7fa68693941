#!/usr/bin/env python3
"""Answers the external calls of one run of the program, as the adapter of a real service would.

usage: worker.py STORE [--delay SECONDS]

The program appends each call to STORE.out as a line

    {"args":["DE-77",2500],"id":"pay-1","n":1,"name":"transfer"}

and takes its answer, {"value":..} or {"failure":"word"}, from the next line of STORE.in. Here STORE.in is a named
pipe, so a call waits until it is answered. Start this before each run, and end it after the run: it answers the
calls that are made from then on, and makes the pipe anew, so that no run finds an answer that was meant for another.

A call comes at least once until its answer is recorded: after a crash it may come again, with the same workflow ID
and the same step number. So what was done is noted in STORE.book under these two before it is answered, and a call
that stands there is answered from there and not done again. --delay waits between the two.
"""
import json
import os
import signal
import sys
import time


class Bank:
    """The service: it has as many receipts as it has done transfers."""

    def __init__(self):
        self.receipts = 0

    def transfer(self, to, cents):
        if to.startswith("XX"):
            return {"failure": "no_such_account"}
        self.receipts += 1
        return {"value": f"receipt {self.receipts}"}


class Book:
    """What the service has done, by workflow ID and step number, in a file that outlives it."""

    def __init__(self, path, bank):
        self.bank = bank
        self.done = {}
        self.file = open(path, "a+", encoding="utf-8")
        self.file.seek(0)
        for line in self.file:
            entry = json.loads(line)
            self.done[entry["call"]["id"], entry["call"]["n"]] = entry["answer"]
            bank.receipts += "value" in entry["answer"]

    def answer(self, call):
        key = call["id"], call["n"]
        if key not in self.done:
            # A real service does these two in one transaction of its own.
            self.done[key] = getattr(self.bank, call["name"])(*call["args"])
            self.note({"answer": self.done[key], "call": call})
        return self.done[key]

    def note(self, entry):
        self.file.write(compact(entry))
        self.file.flush()
        os.fsync(self.file.fileno())


def compact(value):
    return json.dumps(value, separators=(",", ":"), sort_keys=True) + "\n"


def lines_from(path, place):
    """The whole lines of a growing file from a place on, as they come."""
    while not os.path.exists(path):
        time.sleep(0.02)
    with open(path, "rb") as file:
        file.seek(place)
        part = b""
        while True:
            read = file.read()
            if not read:
                time.sleep(0.02)
            *lines, part = (part + read).split(b"\n")
            yield from lines


def main():
    store, *options = sys.argv[1:]
    delay = float(options[1]) if options[:1] == ["--delay"] else 0
    calls, answers = store + ".out", store + ".in"
    place = os.path.getsize(calls) if os.path.exists(calls) else 0
    book = Book(store + ".book", Bank())
    signal.signal(signal.SIGTERM, lambda *_: sys.exit(0))
    if os.path.lexists(answers):
        os.unlink(answers)
    os.mkfifo(answers)
    try:
        # Open at both ends, so that the program never finds the end of the answers while this runs.
        pipe = os.open(answers, os.O_RDWR)
        for line in lines_from(calls, place):
            answer = book.answer(json.loads(line))
            time.sleep(delay)
            os.write(pipe, compact(answer).encode())
    finally:
        os.unlink(answers)


if __name__ == "__main__":
    main()
