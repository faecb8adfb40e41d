"""A desk in a file through sheetdesk_file.py, for tests/saved.sh: desk.c says what each mode does."""
import sys

import sheetdesk_file
from sheetdesk import Job


def issue(desk, run):
    desk.open(run, [Job(0, 0, 0)])
    desk.step(run, 0)
    return desk.issue(run, 0, 1).numbers[0]


def load(paths):
    for path in paths:
        try:
            print("ok %d" % sheetdesk_file.load(path).words()[4])
        except sheetdesk_file.Fault as fault:
            print(fault)


def saves(path):
    desk = sheetdesk_file.load(path)
    while True:
        number = issue(desk, 0)
        print("start %d" % number, flush=True)
        sheetdesk_file.save(desk, path)
        print("done %d" % number, flush=True)


def adds(path, run, count):
    for _ in range(count):
        with sheetdesk_file.lock(path):
            desk = sheetdesk_file.load(path)
            number = issue(desk, run)
            sheetdesk_file.save(desk, path)
            print(number)


def main(mode, *words):
    try:
        if mode == "sum":
            print("%08x" % sheetdesk_file.crc32c(sys.stdin.buffer.read()))
        elif mode == "load":
            load(words)
        elif mode == "save":
            sheetdesk_file.save(sheetdesk_file.load(words[0]), words[1])
        elif mode == "saves":
            saves(*words)
        elif mode == "adds":
            adds(words[0], int(words[1]), int(words[2]))
    except sheetdesk_file.Fault as fault:
        print("%s: %s" % (words[0], fault))
        sys.exit(1)


main(*sys.argv[1:])
