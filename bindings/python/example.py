"""A short tour in Python, the same as bindings/c/example.c: it prints bindings/example.out. `make lib` first."""
import urdhvasolk as urd

# One cycle of a port of 4 byte lanes without user bits: all four flags high, TID 1, TDEST 2, data on lanes 0 and 3, a position on lane 2.
CAPTURE = bytes.fromhex("0F 01 02 0D 00 09 00 11 22 33 44")


def stream():
    judged = urd.judge(4, 0, CAPTURE)
    if judged.refusal or judged.rule:
        print(f"refusal {judged.refusal}, rule {judged.rule} at {judged.place}")
        return
    print(f"clean, {judged.count} transfers")

    transfers, packed = bytearray(len(CAPTURE)), bytearray(64)
    harvested = urd.harvest(4, 0, CAPTURE, transfers)
    repacked = urd.repack(4, 0, 2, transfers[: harvested.count * (7 + 4)], packed)
    print(f"{repacked.count} records of width 2")
    for k in range(repacked.count):
        print(packed[k * 9 : (k + 1) * 9].hex(" ").upper())


def cameras():
    """Two cameras on one link, both with TID 1: by turns up to TLAST, and the second camera's TIDs have 128 added."""
    first = bytes.fromhex("00 01 00 01 00 01 00 A1 01 01 00 01 00 01 00 A2 01 01 00 01 00 01 00 A3")
    second = bytes.fromhex("01 01 00 01 00 01 00 B1")
    merged = bytearray(len(first) + len(second))
    both = urd.merge(1, 0, first, second, merged)
    print(f"{both.count} records of two cameras")
    for k in range(both.count):
        print(merged[k * 8 : (k + 1) * 8].hex(" ").upper())

    # A third camera finds no place: TIDs of a merged list go up to 255, and a port takes them up to 127.
    third = urd.merge(1, 0, first, merged, bytearray(len(first) + len(merged)))
    print(f"a third: refusal {third.refusal}, port {third.port}, record {third.place}")


def burst():
    """Each beat of a WRAP burst of four 4-byte beats on a bus of 8 bytes."""
    wrap = (0x34, 3, 2, urd.WRAP, 8)
    for k in range(4):
        beat, following = urd.burst_beat(*wrap, k), urd.burst_step(*wrap, k)
        line = f"beat {k} at {beat.address:#x}, lanes {beat.lower} to {beat.upper}"
        print(line if following.refusal else f"{line}, next {following.step:+}")


def axi3():
    """For an older board, which takes at most 16 beats, an INCR burst of 20 is cut in two."""
    for b in urd.axi3_cut(0x1002, 19, 2, urd.INCR, 4).bursts:
        print(f"{b.len_ + 1} beats from {b.start:#x}")


def writes():
    """The write beats of that WRAP burst, WLAST and then a strobe for each lane: beat 2 has a stray one, on lane 3."""
    wrap, beats = (0x34, 3, 2, urd.WRAP, 8), bytearray.fromhex("00 F0 00 0F 00 F8 01 0F")
    stray = urd.judge_writes(*wrap, beats)
    print(f"write beat {stray.place} breaks W{stray.rule}")
    beats[5] = 0xF0
    print(f"without the stray one clean, {urd.judge_writes(*wrap, beats).strobes} strobes")


def report():
    """All of it in one call: a setup sheet and a take give the report's lines and the result."""
    print(urd.report(b"width_in=4\nwidth_out=2\nmode=pack\ntlast=wired\nuser=0\n", CAPTURE).text, end="")


stream()
cameras()
burst()
axi3()
writes()
report()
