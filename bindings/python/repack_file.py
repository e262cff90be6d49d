"""Repacks a file of transfer records, such as an archived out.bin, to another width: docs/ARCHIVED-FILES.md says when. `make lib` first, then:
python3 bindings/python/repack_file.py FILE WIDTH USER NEW_WIDTH RESULT

WIDTH and USER are those of the records in FILE: width_out and user of the sheet by which it was written, USER being 0 where that has no
user=. It prints how many records RESULT has. Exit status 1: the library refuses, 2: anything else; RESULT is not touched then, but where
it could not be written to its end. bindings/c/repack_file.c is the same in C: what it prints, what it writes, and its exit status.
"""
import os
import sys

import urdhvasolk as urd

USAGE = "usage: repack_file FILE WIDTH USER NEW_WIDTH RESULT"
MOST = 65536  # octets that the library takes
ROOM = 377424  # octets that are enough for any result, so that 5 is never given
REFUSED, STOPPED = 1, 2  # exit status
SHEET_SAYS = "WIDTH and USER must be the old sheet's width_out and user (0 where it has no user=)"
NO_RECORDS = "FILE is not transfer records of that WIDTH and USER, a take is none; " + SHEET_SAYS
ADVICE = {
    urd.WIDTH: "WIDTH and NEW_WIDTH are byte lanes, 1 to 16",
    urd.USERBITS: "USER is user bits to a byte, 0 to 4",
    urd.LENGTH: "FILE has over 65,536 octets or no whole number of records; " + SHEET_SAYS,
    urd.FIELD: NO_RECORDS,
    urd.RESERVED: NO_RECORDS,
}


def number(text):
    """The number of one or two digits that the text is, or None."""
    return int(text) if text.isascii() and text.isdigit() and len(text) <= 2 else None


def same_file(first, second):
    """Whether two names, links too, are of one file that is there."""
    return os.path.exists(first) and os.path.exists(second) and os.path.samefile(first, second)


def stop(status, text):
    print(text, file=sys.stderr)
    return status


def main(arguments):
    numbers = [number(text) for text in arguments[1:4]]
    if len(arguments) != 5 or None in numbers:
        return stop(STOPPED, USAGE)
    file, result = arguments[0], arguments[4]
    if same_file(file, result):
        return stop(STOPPED, "RESULT is FILE itself, which must not be overwritten")
    try:
        with open(file, "rb") as opened:
            records = opened.read(MOST + 1)  # one more than the library takes, so that a longer file is refused
    except OSError:
        return stop(STOPPED, "FILE can't be read")

    width, user, new_width = numbers
    out = bytearray(ROOM)
    answer = urd.repack(width, user, new_width, records, out)
    if answer.refusal:
        return stop(REFUSED, f"refusal={answer.refusal} at={answer.place}: {ADVICE[answer.refusal]}")
    size = 7 + new_width + (new_width * user + 7) // 8
    try:
        with open(result, "wb") as opened:
            opened.write(out[: answer.count * size])
    except OSError:
        return stop(STOPPED, "RESULT can't be written, or not to its end")
    print(f"records={answer.count}")
    return 0


sys.exit(main(sys.argv[1:]))
