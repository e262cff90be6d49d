"""Paper 01's bench cases P1, S1 to S7 and B1 to B6 through Python, typed from the paper; then what no bench case shows.

It is run from the project's root, because it reads the folder examples/archive. The last line is 'N passed, M failed'. A case
passes if all its checks do.
"""
import sys

import urdhvasolk as urd

TAIL = 0xC3  # what every room holds before a call
CASES = []
wrong = []


def case(name):
    def keep(body):
        CASES.append((name, body))
    return keep


def same(got, expected, what):
    if got != expected:
        wrong.append(f"{what}: {got}, expected {expected}")


def octets(text):
    return bytes.fromhex(text)


def stream(refusal=0, rule=0, place=0, count=0):
    return urd.StreamAnswer(refusal, rule, place, count)


def burst(refusal=0, lower=0, upper=0, step=0, address=0):
    return urd.BurstAnswer(refusal, lower, upper, step, address)


def merged(refusal=0, port=0, place=0, count=0):
    return urd.MergeAnswer(refusal, port, place, count)


def writes(call, count, text, answers=stream):
    """An accepted writing call: into a larger room, an exact one, and refused (5) where one octet is missing."""
    expected = octets(text)
    for more in (9, 0, -1):
        if len(expected) + more < 0:
            continue
        room = bytearray([TAIL] * (len(expected) + more))
        before = bytes(room)
        answer = call(room)
        if more < 0:
            same((answer, room), (answers(refusal=urd.ROOM), before), "one octet too few")
        else:
            same((answer, room), (answers(count=count), expected + before[len(expected):]), f"{more} octets more")


def packs(width, v, text, count, result, user=0):
    writes(lambda out: urd.repack(width, user, v, octets(text), out), count, result)


TAKE = "0F 01 02 0D 00 09 00 11 22 33 44"
TRANSFER = "01 01 02 0D 00 09 00 11 22 33 44"
END_ONLY = "01 00 00 00 00 00 00 00"  # the second record of S3


@case("P1")
def _():
    same(urd.judge(4, 0, octets(TAKE)), stream(count=1), "judged")
    writes(lambda out: urd.harvest(4, 0, octets(TAKE), out), 1, TRANSFER)
    packs(4, 2, TRANSFER, 2, "00 01 02 03 00 01 00 11 00 01 01 02 01 00 01 00 44 00")


SHEET = b"width_in=4\nwidth_out=2\nmode=pack\ntlast=wired\nuser=0\n"


def report(verdict, text, refusal=0, rule=0, place=0, counts=(0, 0, 0), result=""):
    return urd.ReportAnswer(verdict, refusal, rule, place, *counts, text, octets(result))


@case("P1, the report")
def _():
    told = "verdict=clean\ntransfers=1\npackets=1\nrecords=2\n"
    result = "00 01 02 03 00 01 00 11 00 01 01 02 01 00 01 00 44 00"
    same(urd.report(SHEET, octets(TAKE)), report(urd.CLEAN, told, counts=(1, 1, 2), result=result), "clean")


@case("the report refused, and broken")
def _():
    def refused(number, place=0):
        return report(urd.REFUSED, f"verdict=refused\nrefusal={number}\nat={place}\n", refusal=number, place=place)
    same(urd.report(None, octets(TAKE)), refused(urd.SHEET), "no sheet")
    same(urd.report(b"width_in=4\n", None), refused(urd.SHEET), "a sheet of one line, no take")
    same(urd.report(SHEET, None), refused(urd.LENGTH), "no take")
    same(urd.report(SHEET, bytes(65537)), refused(urd.LENGTH), "65,537 octets")
    same(urd.report(SHEET, octets(TAKE + "1" + TAKE[1:])), refused(urd.FIELD, 1), "a field of record 1")
    broken = report(urd.BROKEN, "verdict=broken\ncycle=1\nrule=3\n", rule=3, place=1)
    same(urd.report(SHEET, octets("0A" + TAKE[2:] + TAKE)), broken, "TLAST changed while waiting")
    wide = b"width_in=16\nwidth_out=1\nmode=lanes\ntlast=none\nuser=0\n"
    same(urd.report(wide, octets("0E" + " 00" * 22) * 513), refused(urd.ROOM), "a result of 65,664 octets")


@case("S1")
def _():
    packs(4, 4, TRANSFER, 1, "01 01 02 07 00 05 00 11 00 44 00")


@case("S2")
def _():
    result = "00 01 02 01 00 01 00 11 00 01 01 02 03 00 02 00 00 44"
    writes(lambda out: urd.downsize(4, 0, 2, octets(TRANSFER), out), 2, result)


@case("S3")
def _():
    packs(1, 1, "00 00 00 01 00 01 00 AA" + END_ONLY, 1, "01 00 00 01 00 01 00 AA")


@case("S4")
def _():
    packs(1, 1, END_ONLY + END_ONLY, 2, END_ONLY + END_ONLY)


@case("S5")
def _():
    packs(1, 1, "00 00 00 00 00 00 00 00", 0, "")


@case("S6")
def _():
    for width in range(1, 17):
        for v in range(1, 17):
            packs(width, v, "", 0, "")


@case("S7")
def _():
    records = ["00 01 00 01 00 01 00 5A", "00 02 00 01 00 01 00 5A", "00 01 00 01 00 01 00 5A"]
    for v in range(1, 17):
        packs(1, v, "".join(records), 3, "".join(r + " 00" * (v - 1) for r in records))


def beats(b, expected, steps):
    """Every beat as (address, lower, upper) and every step, then 13 after the last."""
    same(urd.burst_judge(*b), burst(), "judged")
    for k, (address, lower, upper) in enumerate(expected):
        same(urd.burst_beat(*b, k), burst(address=address, lower=lower, upper=upper), f"beat {k}")
    for k, step in enumerate(steps):
        same(urd.burst_step(*b, k), burst(step=step), f"step {k}")
    same(urd.burst_beat(*b, len(expected)), burst(urd.INDEX), "after the last beat")
    same(urd.burst_step(*b, len(steps)), burst(urd.INDEX), "after the last step")


@case("B1")
def _():
    beats((0x1002, 2, 2, urd.INCR, 4), [(0x1002, 2, 3), (0x1004, 0, 3), (0x1008, 0, 3)], [2, 4])


@case("B2")
def _():
    for n in range(1, 17):
        beats((0x1002, n - 1, 2, urd.FIXED, 4), [(0x1002, 2, 3)] * n, [0] * (n - 1))


@case("B3")
def _():
    beats((0x34, 3, 2, urd.WRAP, 8), [(0x34, 4, 7), (0x38, 0, 3), (0x3C, 4, 7), (0x30, 0, 3)], [4, 4, -12])


@case("B4")
def _():
    for bus in (4, 8, 16, 32, 64, 128):
        same(urd.burst_judge(0xFF2, 3, 2, urd.INCR, bus), burst(), "4 beats")
        same(urd.burst_judge(0xFF2, 4, 2, urd.INCR, bus), burst(urd.FENCE), "5 beats")


@case("B5")
def _():
    same(urd.burst_judge(0x1001, 255, 4, urd.INCR, 16), burst(), "0x1001")
    same(urd.burst_judge(0x1010, 255, 4, urd.INCR, 16), burst(urd.FENCE), "0x1010")


@case("B6")
def _():
    same(urd.burst_judge(0x1000, 15, 2, urd.FIXED, 4), burst(), "FIXED of 16")
    same(urd.burst_judge(0x1000, 16, 2, urd.FIXED, 4), burst(urd.COUNT), "FIXED of 17")
    same(urd.burst_judge(0x1000, 2, 2, urd.WRAP, 4), burst(urd.COUNT), "WRAP of 3")
    same(urd.burst_judge(0x32, 3, 2, urd.WRAP, 4), burst(urd.ALIGN), "WRAP 0x32")


def cut(refusal=0, bursts=()):
    return urd.CutAnswer(refusal, [urd.Burst(*b) for b in bursts])


@case("T-02, cuts")
def _():
    two = [(0x1002, 15, 2, urd.INCR, 4), (0x1040, 0, 2, urd.INCR, 4)]
    same(urd.axi3_cut(0x1002, 16, 2, urd.INCR, 4), cut(bursts=two), "17 beats from an unaligned start")
    same(urd.axi3_cut(0x1002, 16, 2, urd.INCR, 4, 2), cut(bursts=two), "a row of two")
    same(urd.axi3_cut(0x1002, 16, 2, urd.INCR, 4, 1), cut(urd.ROOM), "a row of one")
    same(urd.axi3_cut(0x1002, 15, 2, urd.INCR, 4, 1), cut(bursts=two[:1]), "16 beats are one burst")
    longest = [(max(0x1001, 0x1000 + 0x100 * j), 15, 4, urd.INCR, 16) for j in range(16)]
    same(urd.axi3_cut(0x1001, 255, 4, urd.INCR, 16, 2**64), cut(bursts=longest), "256 beats")
    same(urd.axi3_cut(0x1001, 255, 4, urd.INCR, 16, 15), cut(urd.ROOM), "a row of 15")
    same(urd.axi3_cut(0x34, 15, 2, urd.WRAP, 8), cut(bursts=[(0x34, 15, 2, urd.WRAP, 8)]), "WRAP as itself")
    same(urd.axi3_cut(5, 0, 0, urd.FIXED, 1, 0), cut(urd.ROOM), "FIXED and an empty row")
    same(urd.axi3_cut(5, 0, 0, urd.FIXED, 1, -1), cut(urd.ROOM), "less than none")
    same(urd.axi3_cut(0x1010, 255, 4, urd.INCR, 16, 0), cut(urd.FENCE), "12 before 5")
    same(urd.axi3_cut(0, 0, 0, urd.INCR, -1), cut(urd.BUS), "a bus of -1")
    same(urd.axi3_cut(2**32, 0, 0, urd.INCR, 1), None, "no 32-bit start")


def written(refusal=0, rule=0, place=0, strobes=0):
    return urd.WriteAnswer(refusal, rule, place, strobes)


def beats_are(b, text, expected, what):
    same(urd.judge_writes(*b, octets(text)), expected, what)


W_B1 = (0x1002, 2, 2, urd.INCR, 4)  # lanes 2-3, 0-3, 0-3
W_B3 = (0x34, 3, 2, urd.WRAP, 8)  # lanes 4-7, 0-3, 4-7, 0-3
ONE, TWO = (0x1000, 0, 2, urd.INCR, 4), (0x1000, 1, 2, urd.INCR, 4)  # one beat of four lanes, and two
LONGEST = (0x1000, 255, 0, urd.INCR, 8)  # 256 beats of one byte, beat k on lane k mod 8


def lanes_are(b, lanes, strobes):
    """On a bus of 8 lanes or fewer, each strobe of each beat alone: clean on the lanes of the beat, W1 at that beat on any other."""
    take = bytearray(2 * len(lanes))
    take[-2] = 1
    for k, inside in enumerate(lanes):
        for lane in range(b[4]):
            take[2 * k + 1] = 1 << lane
            expected = written(strobes=1) if inside >> lane & 1 else written(rule=1, place=k)
            same(urd.judge_writes(*b, take), expected, f"{b}, lane {lane} of beat {k}")
        take[2 * k + 1] = 0
    same(urd.judge_writes(*b, take), written(), f"{b}, no strobe at all")
    take[1::2] = lanes
    same(urd.judge_writes(*b, take), written(strobes=strobes), f"{b}, every lane of each beat")


@case("T-05, write beats")
def _():
    lanes_are(W_B1, bytes([0x0C, 0x0F, 0x0F]), 10)
    for n in range(1, 17):
        lanes_are((0x1002, n - 1, 2, urd.FIXED, 4), bytes([0x0C] * n), 2 * n)
    lanes_are(W_B3, bytes([0xF0, 0x0F, 0xF0, 0x0F]), 16)
    beats_are(W_B1, "00 04 00 00 01 0A", written(strobes=3), "some lanes of each beat")
    beats_are((0x34, 1, 2, urd.WRAP, 16), "00 F0 00 01 0F 00", written(strobes=8), "a WRAP within the bus: lanes 4-7, 0-3")
    beats_are((0x34, 1, 2, urd.WRAP, 16), "00 F0 00 01 00 0F", written(rule=1, place=1), "and not those of an INCR, 4-7, 8-11")
    beats_are((0xFFFFFFFB, 1, 2, urd.INCR, 8), "00 08 01 F0", written(strobes=5), "up to the last byte of memory")
    take = octets("00 0C 00 0F 01 0F")
    for kind in (bytes, bytearray, memoryview):
        same(urd.judge_writes(*W_B1, kind(take)), written(strobes=10), f"a take as {kind.__name__}")
    same(urd.judge_writes(*W_B1, memoryview(b"\xFF" + take)[1:]), written(strobes=10), "a part of another object")


@case("T-05, W1 to W5")
def _():
    two_fixed = (0x1002, 1, 2, urd.FIXED, 4)
    for b, text, rule, place, what in (
        (W_B1, "00 0E 00 0F 01 0F", 1, 0, "W1 below the lower lane"),
        (W_B3, "00 F0 00 1F 00 F0 01 0F", 1, 1, "W1 above the upper lane"),
        (W_B3, "00 F0 00 0F 00 F8 01 0F", 1, 2, "W1 in beat 2"),
        (W_B1, "00 0C 01 0F 01 0F", 2, 1, "W2"),
        (W_B1, "00 0C 00 0F 00 0F", 3, 2, "W3"),
        (TWO, "00 0F 01 0F 00 00", 4, 2, "W4"),
        (TWO, "00 0F 01 0F 01 0F 01 0F", 4, 2, "W4 with WLAST and strobes, the first of two"),
        ((0x1000, 1, 0, urd.INCR, 4), "00 01 01 02 01 0F", 4, 2, "W1 does not read a beat past the last"),
        (W_B1, "00 0C 00 0F", 5, 2, "W5"),
        (W_B1, "", 5, 0, "W5 of an empty take"),
        (W_B1, "01 0F 00 0F 01 0F", 1, 0, "W1 before W2 in a beat"),
        (W_B3, "00 F0 00 0F 00 F0 00 FF", 1, 3, "W1 before W3 in a beat"),
        (W_B1, "01 0C 00 0F 01 0F", 2, 0, "W2 in beat 0"),
        (two_fixed, "01 0C 01 0F", 2, 0, "an earlier W2 before a later W1"),
        (TWO, "00 0F 00 0F 01 0F", 3, 1, "three beats for two, WLAST on the third: W3 at 1"),
        (W_B1, "00 0C 01 0F", 2, 1, "too few, and one that is given breaks a rule"),
        (ONE, "00 0F", 3, 0, "W3 of one beat"),
        (ONE, "01 0F 00 0F", 4, 1, "W4 of one beat"),
        (ONE, "", 5, 0, "W5 of one beat"),
    ):
        beats_are(b, text, written(rule=rule, place=place), what)
    beats_are(ONE, "01 0A", written(strobes=2), "one beat")


@case("T-05, every bus, the longest")
def _():
    for size in range(8):
        bus = 2**size
        take = bytes([1]) + (2**bus - 1).to_bytes((bus + 7) // 8, "little")
        same(urd.judge_writes(0, 0, size, urd.INCR, bus, take), written(strobes=bus), f"all lanes of bus {bus}")
        same(urd.judge_writes(0, 0, size, urd.INCR, bus, take[:-1]), written(urd.LENGTH), f"bus {bus}, an octet too few")
    beats_are((8, 0, 3, urd.INCR, 16), "01 00 FF", written(strobes=8), "low octet first")
    beats_are((8, 0, 3, urd.INCR, 16), "01 FF 00", written(rule=1), "and not high octet first")
    beats_are((3, 0, 5, urd.INCR, 32), "01 F8 FF FF FF", written(strobes=29), "lanes 3 to 31")
    take = bytearray(octets("00 01 00 02 00 04 00 08 00 10 00 20 00 40 00 80") * 32)
    same(urd.judge_writes(*LONGEST, take[:-2]), written(rule=5, place=255), "255 beats for 256")
    same(urd.judge_writes(*LONGEST, take), written(rule=3, place=255), "256 beats and no WLAST")
    take[510] = 1
    same(urd.judge_writes(*LONGEST, take), written(strobes=256), "256 beats")
    same(urd.judge_writes(*LONGEST, take + bytes(2)), written(rule=4, place=256), "257 beats for 256")
    same(urd.judge_writes(*LONGEST, take + bytes(65024)), written(rule=4, place=256), "65,536 octets")
    same(urd.judge_writes(*LONGEST, take + bytes(65026)), written(urd.LENGTH), "one record more")
    same(urd.judge_writes(0xFF2, 4, 2, urd.INCR, 4, bytes(65538)), written(urd.FENCE), "12 before 2 of a take that is too long")
    same(urd.judge_writes(*LONGEST, take + bytes(65022) + b"\x80\0"), written(urd.FIELD, place=32767), "3 in the last record")


@case("T-05, refusals")
def _():
    for bit in range(1, 8):
        for last in range(2):
            same(urd.judge_writes(*ONE, bytes([1 << bit | last, 15])), written(urd.FIELD), f"3 for bit {bit} beside WLAST")
    for bus in (1, 2, 4):
        for bit in range(bus, 8):
            same(urd.judge_writes(0, 0, 0, urd.INCR, bus, bytes([1, 1 << bit])), written(urd.FIELD), f"3: strobe {bit}, bus {bus}")
    beats_are(TWO, "01 0F 01 1F", written(urd.FIELD, place=1), "3 behind a broken rule")
    beats_are(ONE, "01 0F 00 0F 04 00", written(urd.FIELD, place=2), "3 in a beat past the last")
    beats_are(W_B1, "02 0C", written(urd.FIELD), "3 where there are too few")
    beats_are(W_B1, "00 0C 02 0F 03 0F", written(urd.FIELD, place=1), "the first of two")
    beats_are(ONE, "02", written(urd.LENGTH), "2 before 3")
    for b, refusal in (
        ((0x1FFF, 256, 8, 3, 3), urd.BUS),
        ((0x1FFF, 256, 8, 3, 4), urd.SIZE),
        ((0x1FFF, 256, 2, 3, 4), urd.TYPE),
        ((0xFF1, 256, 2, urd.INCR, 4), urd.COUNT),
        ((0x32, 3, 2, urd.WRAP, 4), urd.ALIGN),
        ((0xFF2, 4, 2, urd.INCR, 4), urd.FENCE),
    ):
        beats_are(b, "02", written(refusal), f"{refusal} before 2")
        beats_are(b, "02 00", written(refusal), f"{refusal} before 3")
    for big in (-1, 2**32 - 1, 2**32 + 1, 2**64 + 1):
        beats_are((0, 0, 0, 1, big), "01 01", written(urd.BUS), f"bus {big}")
        beats_are((0, 0, big, 1, 4), "01 01", written(urd.SIZE), f"size {big}")
        beats_are((0, 0, 0, big, 4), "01 01", written(urd.TYPE), f"kind {big}")
        beats_are((0, big, 0, 1, 4), "01 01", written(urd.COUNT), f"len {big}")
    for start in (2**32, -1):
        beats_are((start, 0, 0, 1, 1), "01 01", None, f"start {start} is no 32-bit number")
    beats_are((2**32 - 1, 0, 0, 1, 1), "01 01", written(strobes=1), "the last byte of memory")


TAGS = "ED"  # two user bits to each byte of P1's record: 1, 3, 2, 3 on lanes 0 to 3, and lane 1 is null


@case("T-06, user bits")
def _():
    take = bytearray(octets((TAKE + TAGS) * 2))
    same(urd.judge(4, 2, take), stream(count=2), "judged")
    writes(lambda out: urd.harvest(4, 2, octets(TAKE + TAGS), out), 1, TRANSFER + TAGS)
    packs(4, 2, TRANSFER + TAGS, 2, "00 01 02 03 00 01 00 11 00 09 01 01 02 01 00 01 00 44 00 03", user=2)
    result = "00 01 02 01 00 01 00 11 00 01 01 01 02 03 00 02 00 00 44 0E"
    writes(lambda out: urd.downsize(4, 2, 2, octets(TRANSFER + TAGS), out), 2, result)
    packs(3, 2, "00 01 02 05 00 01 00 11 22 33 B9 01 01 01 02 01 00 01 00 44 55 66 05 00", 2,
          "00 01 02 03 00 01 00 11 00 31 01 01 02 01 00 01 00 44 00 05", user=3)
    same(urd.data_octets(4, 2, take, 1), urd.PartAnswer(0, 19, 4), "data octets without the user bits")
    same((urd.fill_in(4, 2, take, 0), take), (stream(count=2), octets(("0E" + TAKE[2:] + TAGS) * 2)), "fill-in, low")
    for bit in range(64):
        record = octets("00 00 00 FF FF FF FF" + "00" * 16) + (1 << bit).to_bytes(8, "little")
        room = bytearray(16 * 9)
        same(urd.repack(16, 4, 1, record, room), stream(count=16), "16 records")
        same(room[8::9], bytes((1 << bit % 4) * (x == bit // 4) for x in range(16)), f"user bit {bit} with its byte")


@case("T-06, R3 and the padding, the longest")
def _():
    for width in range(1, 17):
        for user in range(1, 5):
            users = (width * user + 7) // 8
            for bit in range(8 * users):
                take = b"\x0A" + bytes(6 + width + users) + b"\x0E" + bytes(6 + width) + (1 << bit).to_bytes(users, "little")
                expected = stream(rule=3, place=1) if bit < width * user else stream(urd.FIELD, place=1)
                same(urd.judge(width, user, take), expected, f"user bit {bit} turns, width {width}, {user} to a byte")
    for width, user in ((8, 1), (7, 2), (6, 3), (6, 4)):
        same(urd.judge(width, user, bytes(65536)), stream(), "65,536 octets")
        same(urd.judge(width, user, bytes(65552)), stream(urd.LENGTH), "one record more")
    take = (bytes(3) + b"\xFF" * 4 + bytes(18)) * 2621
    same(urd.repack(16, 1, 1, take, bytearray(377424)), stream(count=41936), "the longest result")
    same(urd.repack(16, 1, 1, take, bytearray(377423)), stream(urd.ROOM), "one octet too few")


@case("T-06, refusals and the report")
def _():
    for user in (5, 8, 2**32, 2**64 - 1, 2**64, -1):
        refused = stream(urd.USERBITS)
        same(urd.judge(16, user, b"\0"), refused, f"16 before 2, {user}")
        same(urd.judge(17, user, b""), stream(urd.WIDTH), f"1 before 16, {user}")
        same(urd.harvest(1, user, b"", bytearray()), refused, f"harvest, {user}")
        same(urd.fill_in(1, user, bytearray(), True), refused, f"fill-in, {user}")
        same(urd.repack(1, user, 17, b"", bytearray()), stream(urd.WIDTH), f"1 of the width out before 16, {user}")
        same(urd.repack(1, user, 16, b"", bytearray()), refused, f"repack, {user}")
        same(urd.downsize(4, user, 3, b"", bytearray()), refused, f"16 before 6, {user}")
        same(urd.data_octets(1, user, b"", 0), urd.PartAnswer(urd.USERBITS, 0, 0), f"16 before 13, {user}")
    told = "verdict=clean\ntransfers=1\npackets=1\nrecords=2\n"
    result = "00 01 02 03 00 01 00 11 00 09 01 01 02 01 00 01 00 44 00 03"
    tagged, take = SHEET.replace(b"user=0", b"user=2"), octets(TAKE + TAGS)
    same(urd.report(tagged, take), report(urd.CLEAN, told, counts=(1, 1, 2), result=result), "P1 with user bits")
    for line, number in ((b"user=5", urd.USERBITS), (b"user=9", urd.USERBITS), (b"user=10", urd.SHEET), (b"user=", urd.SHEET)):
        same(urd.report(SHEET.replace(b"user=0", line), take).refusal, number, line.decode())
    same(urd.report(SHEET.replace(b"user=0\n", b""), octets(TAKE)).refusal, urd.SHEET, "a sheet of four lines")


def byte(last, tid, octet, dest=2, lane="01"):
    """A record of one lane: TLAST, TID, and the lane's octet, which is data or, as lane 00, null."""
    return f"{last:02X} {tid:02X} {dest:02X} {lane} 00 {lane} 00 {octet}"


def merges(first, second, result, width=1, user=0):
    """An accepted merging: lists of records, and those of the result."""
    def call(out):
        return urd.merge(width, user, octets("".join(first)), octets("".join(second)), out)
    writes(call, len(result), "".join(result), merged)


@case("T-08, turns")
def _():
    a1, a2, a3 = byte(0, 1, "A1"), byte(1, 1, "A2"), byte(1, 1, "A3")
    b1, b2, b3 = byte(1, 1, "B1"), byte(0, 1, "B2"), byte(1, 1, "B3")
    c1, c2, c3 = byte(1, 0x81, "B1"), byte(0, 0x81, "B2"), byte(1, 0x81, "B3")  # the same from port 1
    merges([a1, a2, a3], [b1, b2, b3], [a1, a2, c1, a3, c2, c3])  # packet by packet
    merges([a1, a1], [b2, b2, b2], [a1, a1, c2, c2, c2])  # no TLAST at all
    other, another = byte(1, 2, "A4"), byte(1, 1, "A5", dest=15)  # TLAST of another TID, and of another TDEST
    merges([a1, other, a3, a1, another, a3], [b1, b1, b1], [a1, other, c1, a3, c1, a1, another, c1, a3])
    merges([a2, a3, a2], [b2, byte(1, 5, "B5"), b2, byte(1, 1, "B6", dest=0), b3],
           [a2, c2, byte(1, 0x85, "B5"), a3, c2, byte(1, 0x81, "B6", dest=0), a2, c3])
    merges([a2], [b1, b3, b2, b3], [a2, c1, c3, c2, c3])  # port 0 has nothing left
    merges([a2, a3, a1], [b2], [a2, c2, a3, a1])  # port 1 has nothing left
    merges([a2, a1], [b1, b3, b2], [a2, c1, a1, c3, c2])  # the end of a list without TLAST
    merges([], [b1, b2], [c1, c2])
    merges([a2, a1], [], [a2, a1])
    for width in range(1, 17):
        merges([], [], [], width, user=4)


@case("T-08, each record as it is")
def _():
    null, null_end = byte(0, 7, "C1", lane="00"), byte(1, 7, "C2", lane="00")
    sent, sent_end = byte(0, 0x87, "C1", lane="00"), byte(1, 0x87, "C2", lane="00")
    merges([null, byte(1, 1, "A1"), null], [null, null, byte(1, 1, "B1")],
           [null, byte(1, 1, "A1"), sent, sent, byte(1, 0x81, "B1"), null])  # all null: passed on, and the turn goes on
    merges([null_end, byte(0, 1, "A1")], [byte(0, 1, "B1"), null_end, null_end],
           [null_end, byte(0, 0x81, "B1"), sent_end, byte(0, 1, "A1"), sent_end])  # TLAST alone ends a turn
    merges([TRANSFER], [TRANSFER], [TRANSFER, "01 81 02 0D 00 09 00 11 22 33 44"], 4)
    merges([TRANSFER + TAGS], [TRANSFER + TAGS], [TRANSFER + TAGS, "01 81 02 0D 00 09 00 11 22 33 44" + TAGS], 4, 2)
    merges(["00 03 00 00 00 00 00 E3 E4 3F", "01 03 00 02 00 00 00 E5 E6 07"], ["00 03 0F 03 00 01 00 E0 E1 38"],
           ["00 03 00 00 00 00 00 E3 E4 3F", "01 03 00 02 00 00 00 E5 E6 07", "00 83 0F 03 00 01 00 E0 E1 38"], 2, 3)
    for width in range(1, 17):
        for user in range(5):
            bits = (2 ** (width * user) - 1).to_bytes((width * user + 7) // 8, "little").hex()
            rest = "0F" + (2**width - 1).to_bytes(2, "little").hex() * 2 + bytes(range(0xB1, 0xB1 + width)).hex() + bits
            merges(["007F" + rest, "0101" + rest], ["0100" + rest], ["007F" + rest, "0101" + rest, "0180" + rest], width, user)


@case("T-08, every TID, each bit of a record")
def _():
    for tid in range(256):
        for lane in ("01", "00"):
            record = byte(0, tid, "A1", lane=lane)
            if tid < 128:
                merges([record], [record], [record, byte(0, tid + 128, "A1", lane=lane)])
            else:
                same(urd.merge(1, 0, octets(record), b"", bytearray(8)), merged(urd.TAGS), f"TID {tid} on port 0")
                same(urd.merge(1, 0, b"", octets(record), bytearray(8)), merged(urd.TAGS, 1), f"TID {tid} on port 1")
    zero = octets("FE 00 F0 FC FF FC FF 00 00 C0")  # what must be zero in a record of two lanes with three user bits each
    for bit in range(80):
        good, record = bytes(10), (1 << bit).to_bytes(10, "little")
        room, sent = bytearray(30), bytes([record[0], record[1] + 128 & 255]) + record[2:]
        refusal = urd.FIELD if zero[bit // 8] >> bit % 8 & 1 else urd.RESERVED if bit // 8 == 5 else urd.TAGS if bit == 15 else 0
        refused = int(refusal != 0)
        answers = [merged(refusal, port * refused, refused, 3 - 3 * refused) for port in (0, 1)]
        same(urd.merge(2, 3, good + record, good, room), answers[0], f"bit {bit} on port 0")
        same(room, bytes(30) if refused else good + record + b"\0\x80" + bytes(8), f"bit {bit} of port 0 as it goes out")
        room = bytearray(30)
        same(urd.merge(2, 3, good, good + record, room), answers[1], f"bit {bit} on port 1")
        same(room, bytes(30) if refused else good + b"\0\x80" + bytes(8) + sent, f"bit {bit} of port 1 as it goes out")


@case("T-08, refusals")
def _():
    sound = "01 7F 0F 03 00 01 00 11 22 3F"  # two lanes with three user bits each
    tagged, null_tagged = "00 80 00 03 00 03 00 11 22 00", "00 FF 00 00 00 00 00 11 22 3F"
    lane, padding = "00 80 00 01 00 03 00 11 22 00", "00 80 00 01 00 03 00 11 22 40"  # a reserved lane, too, and a padding bit
    for shape, first, second, refusal, port, place in (
        ((17, 5), "02", "02", urd.WIDTH, 0, 0),
        ((2, 5), "02", "02", urd.USERBITS, 0, 0),
        ((2, 3), padding + "02", padding + "02", urd.LENGTH, 0, 0),
        ((2, 3), "02", "", urd.LENGTH, 0, 0),
        ((2, 3), padding, padding + "02", urd.LENGTH, 1, 0),
        ((2, 3), tagged, "00", urd.LENGTH, 1, 0),
        ((2, 3), sound + padding, padding, urd.FIELD, 0, 1),
        ((2, 3), sound * 2 + lane + padding, padding, urd.RESERVED, 0, 2),
        ((2, 3), sound + tagged + lane + padding, padding, urd.TAGS, 0, 1),
        ((2, 3), null_tagged + tagged, "", urd.TAGS, 0, 0),
        ((2, 3), sound * 2, sound + padding + tagged, urd.FIELD, 1, 1),
        ((2, 3), sound, sound * 2 + lane + padding, urd.RESERVED, 1, 2),
        ((2, 3), sound * 3, sound + tagged + lane, urd.TAGS, 1, 1),
        ((2, 3), "", sound + null_tagged + padding, urd.TAGS, 1, 1),
    ):
        for size in (256, 0):  # with no room at all it is the same
            room = bytearray([TAIL] * size)
            answer = urd.merge(*shape, octets(first), octets(second), room)
            same((answer, room), (merged(refusal, port, place), bytes([TAIL] * size)), f"{refusal} of port {port}, room {size}")
    same(urd.merge(2, 3, b"", octets(sound), bytearray()), merged(urd.ROOM), "5 is port 0's")
    for big in (-1, 0, 17, 2**32 + 2, 2**64 - 1, 2**64 + 2, -(2**64) + 2):
        same(urd.merge(big, 3, octets(sound), b"", bytearray(10)), merged(urd.WIDTH), f"width {big}")
    for big in (-1, 5, 8, 2**32 + 3, 2**64 - 1, 2**64 + 3, -(2**64) + 3):
        same(urd.merge(2, big, octets(sound), b"", bytearray(10)), merged(urd.USERBITS), f"{big} user bits")


@case("T-08, the longest")
def _():
    def record(last, k, added=0):
        return bytes([last, k % 128 + added, 3, 1, 0, 1, 0, k // 128])
    first = b"".join(record(1, k) for k in range(8192))
    second = b"".join(record(k % 2, k) for k in range(8192))  # turns of two
    result = b"".join(record(1, k) + record(0, 2 * k, 128) + record(1, 2 * k + 1, 128) for k in range(4096)) + first[32768:]
    room = bytearray([TAIL] * 131073)
    for lists, size, expected in (
        ((first, second), 131071, merged(urd.ROOM)),
        ((first + bytes(8), second + bytes(8)), 131073, merged(urd.LENGTH)),
        ((first, second + bytes(8)), 131073, merged(urd.LENGTH, 1)),
        ((first[:-1], second), 131073, merged(urd.LENGTH)),
        ((first, second[:-7] + b"\x80" + second[-6:]), 131072, merged(urd.TAGS, 1, 8191)),
        ((first[:-6] + b"\x10" + first[-5:], second), 131072, merged(urd.FIELD, 0, 8191)),
    ):
        same(urd.merge(1, 0, *lists, memoryview(room)[:size]), expected, f"a room of {size}")
    same(room == bytes([TAIL] * 131073), True, "refused, it is unchanged")
    same(urd.merge(1, 0, first, second, memoryview(room)[:-1]), merged(count=16384), "65,536 octets on both")
    same(room == result + bytes([TAIL]), True, "131,072 octets, nothing else")


@case("T-08, any octets as lists")
def _():
    list_ = octets(byte(1, 1, "A1") + byte(0, 2, "A2"))
    result = octets(byte(1, 1, "A1") + byte(1, 0x81, "A1") + byte(0, 2, "A2") + byte(0, 0x82, "A2"))
    wide = memoryview(list_).cast("Q")  # two numbers of eight octets
    for first in (list_, bytearray(list_), memoryview(b"\xFF" + list_)[1:], wide):
        for second in (list_, bytearray(list_), memoryview(list_ + b"\xFF")[:-1], wide, first):
            room = bytearray([TAIL] * 34)
            same(urd.merge(1, 0, first, second, memoryview(room)[1:33]), merged(count=4), "the same octets on both ports")
            same(room, bytes([TAIL]) + result + bytes([TAIL]), "only the part that was lent")
            same((bytes(first), bytes(second)), (list_, list_), "the lists are as they were")
    room = bytearray(list_ + bytes(16))
    same(urd.merge(1, 0, memoryview(room)[:16], memoryview(room)[:16], room), merged(count=4), "the lent memory as both lists")
    same(room, result, "merged in place")


PACKED = "01 01 02 07 00 05 00 11 00 44 00"  # S1


@case("slices repack as their original")
def _():
    sliced_p1 = "00 01 02 01 00 01 00 11 00 01 01 02 03 00 02 00 00 44"  # the slices of TRANSFER
    tagged = "00 01 02 01 00 01 00 11 00 01 01 01 02 03 00 02 00 00 44 0E"  # the slices of TRANSFER + TAGS
    packs(2, 4, tagged, 1, PACKED + "39", user=2)
    for user, original, sliced in ((0, TRANSFER, sliced_p1), (2, TRANSFER + TAGS, tagged)):
        for v in range(1, 17):
            for size in range(33):
                rooms = [bytearray([TAIL] * size) for _ in range(2)]
                answer = urd.repack(4, user, v, octets(original), rooms[0])
                same((urd.repack(2, user, v, octets(sliced), rooms[1]), rooms[1]), (answer, rooms[0]), f"to width {v}, room {size}")
            same(answer, stream(count=(3 + v - 1) // v), f"three items to width {v}")


def archive(name):
    with open(f"examples/archive/{name}", "rb") as file:
        return file.read()


@case("the archived folder")
def _():
    told, result = "verdict=clean\ntransfers=3\npackets=2\nrecords=2\n", PACKED + "01 01 02 0F 00 0F 00 21 22 23 24"
    sheet = SHEET.replace(b"width_out=2", b"width_out=4")
    lanes = urd.report(SHEET.replace(b"mode=pack", b"mode=lanes"), archive("take.bin"))
    same((lanes.records, lanes.result), (6, archive("out.bin")), "what the report writes")
    same(urd.report(sheet, archive("take.bin")), report(urd.CLEAN, told, counts=(3, 2, 2), result=result), "the take with mode=pack")
    writes(lambda out: urd.repack(2, 0, 4, archive("out.bin"), out), 2, result)


@case("findings and UNCLEAN")
def _():
    cycle = " 00 00 01 00 01 00 55"
    for flags, rule in ((("08", "02"), 1), (("00", "0E"), 1), (("0A", "08"), 2), (("0A", "0B"), 3)):
        take = octets(flags[0] + cycle + flags[1] + cycle)
        room = bytearray([TAIL] * 16)
        same(urd.judge(1, 0, take), stream(rule=rule, place=1), f"R{rule}")
        same((urd.harvest(1, 0, take, room), room), (stream(urd.UNCLEAN, rule, 1), bytes([TAIL] * 16)), f"harvest, R{rule}")
    same(urd.judge(1, 0, octets("00" + cycle + "08" + cycle + "0E" + cycle)), stream(count=1), "no R1 after one idle sample")
    same(urd.judge(1, 0, octets("0E 00 00 00 00 01 00 55")), stream(rule=4), "R4")


@case("fill-in, data octets")
def _():
    take = bytearray(octets(TAKE + TAKE))
    same(urd.data_octets(4, 0, take, 1), urd.PartAnswer(0, 18, 4), "record 1")
    same(urd.data_octets(4, 0, take, 2), urd.PartAnswer(urd.INDEX, 0, 0), "no record 2")
    for level, flags in ((0, "0E"), (1, "0F"), (False, "0E"), (True, "0F"), (0, "0E"), (-1, "0F"), (0, "0E"), (2**64, "0F")):
        same(urd.fill_in(4, 0, take, level), stream(count=2), f"fill-in, {level}")
        same(take, octets((flags + TAKE[2:]) * 2), f"TLAST of each record by {level}, nothing else")
    same(urd.fill_in(3, 0, take, False), stream(urd.LENGTH), "fill-in, no whole number of records")
    same(take, octets(TAKE + TAKE), "refused, it is unchanged")
    for level in ("low", None, 0.0):
        try:
            same(urd.fill_in(4, 0, take, level), "TypeError", f"fill-in, {level!r}")
        except TypeError:
            same(take, octets(TAKE + TAKE), f"{level!r} is no level")


@case("numbers at the edges")
def _():
    for wide in (-1, 0, 17, 2**32 + 4, 2**64 - 1, 2**64 + 4, -(2**64) + 4):
        same(urd.judge(wide, 0, octets(TAKE)), stream(urd.WIDTH), f"judge {wide}")
        same(urd.repack(wide, 0, 1, b"", bytearray()), stream(urd.WIDTH), f"repack from {wide}")
        same(urd.repack(1, 0, wide, b"", bytearray()), stream(urd.WIDTH), f"repack to {wide}")
        same(urd.downsize(wide, 0, wide, b"", bytearray()), stream(urd.WIDTH), f"downsize {wide}")
        same(urd.fill_in(wide, 0, bytearray(), True), stream(urd.WIDTH), f"fill-in {wide}")
    for big in (-1, 2**32 - 1, 2**32 + 1, 2**64 + 1):
        same(urd.burst_judge(0, 0, 0, 1, big), burst(urd.BUS), f"bus {big}")
        same(urd.burst_judge(0, 0, big, 1, 4), burst(urd.SIZE), f"size {big}")
        same(urd.burst_judge(0, 0, 0, big, 4), burst(urd.TYPE), f"kind {big}")
        same(urd.burst_judge(0, big, 0, 1, 4), burst(urd.COUNT), f"len {big}")
        same(urd.burst_beat(0, 1, 0, 1, 4, big), burst(urd.INDEX), f"beat {big}")
        same(urd.data_octets(4, 0, octets(TAKE), big), urd.PartAnswer(urd.INDEX, 0, 0), f"record {big}")
    same((urd.burst_judge(2**32, 0, 0, 1, 4), urd.burst_beat(-1, 0, 0, 1, 4, 0)), (None, None), "no 32-bit start")
    same(urd.judge(1, 0, bytes(65537)), stream(urd.LENGTH), "65,537 octets")
    same(urd.judge(1, 0, b""), stream(), "an empty take")


@case("input and lent memory may be the same object")
def _():
    room = bytearray(octets(TRANSFER + "00" * 7))
    same(urd.repack(4, 0, 2, memoryview(room)[:11], room), stream(count=2), "repacked in place")
    same(room, octets("00 01 02 03 00 01 00 11 00 01 01 02 01 00 01 00 44 00"), "its octets")


failed = 0
for name, body in CASES:
    wrong.clear()
    body()
    print(name, "FAILED" if wrong else "ok")
    for line in wrong:
        print("  not so:", line)
    failed += bool(wrong)
print(f"{len(CASES) - failed} passed, {failed} failed")
sys.exit(1 if failed else 0)
