"""The library for Python: each call of include/urdhvasolk.h, with the answer as a namedtuple of paper 01's numbers.

Only the standard library is used. The shared object is the one of the environment variable URDHVASOLK_LIB, or else
build/lib/liburdhvasolk.so of this project (`make lib`). No call raises on any whole numbers and octets:
- a number that the library's argument cannot hold, negative ones too, is passed on as the largest one that it can, which
  is refused for the same reason; a start that is no 32-bit number has no such stand-in, and the answer is None; the level of
  fill_in is never refused;
- a stream call takes the width of its records and, straight after it (T-06), their user bits to a byte, 0 to 4;
- input is any bytes-like object, and is copied, so it may be the lent memory itself;
- lent memory (`out`, and the capture of fill_in) is a bytearray or the like, changed in place as the header says.
"""
import ctypes
import operator
import os
from collections import namedtuple

WIDTH, LENGTH, FIELD, RESERVED, ROOM, RATIO, BUS, SIZE, TYPE, COUNT, ALIGN, FENCE, INDEX, UNCLEAN, SHEET = range(1, 16)
USERBITS, TAGS = 16, 17
FIXED, INCR, WRAP = range(3)
CLEAN, BROKEN, REFUSED = range(3)

BurstAnswer = namedtuple("BurstAnswer", "refusal lower upper step address")
Burst = namedtuple("Burst", "start len_ size kind bus")
CutAnswer = namedtuple("CutAnswer", "refusal bursts")
WriteAnswer = namedtuple("WriteAnswer", "refusal rule place strobes")
StreamAnswer = namedtuple("StreamAnswer", "refusal rule place count")
MergeAnswer = namedtuple("MergeAnswer", "refusal port place count")
PartAnswer = namedtuple("PartAnswer", "refusal start length")
ReportAnswer = namedtuple("ReportAnswer", "verdict refusal rule place transfers packets records text result")

_u32, _i32, _u64, _size = ctypes.c_uint32, ctypes.c_int32, ctypes.c_uint64, ctypes.c_size_t


class _Burst(ctypes.Structure):
    _fields_ = [("refusal", _u32), ("lower", _u32), ("upper", _u32), ("step", _i32), ("address", _u64)]


class _Cut(ctypes.Structure):
    _fields_ = [("refusal", _u32), ("count", _u64)]


class _Write(ctypes.Structure):
    _fields_ = [("refusal", _u32), ("rule", _u32), ("place", _u64), ("strobes", _u64)]


class _Stream(ctypes.Structure):
    _fields_ = [("refusal", _u32), ("rule", _u32), ("place", _u64), ("count", _u64)]


class _Merge(ctypes.Structure):
    _fields_ = [("refusal", _u32), ("port", _u32), ("place", _u64), ("count", _u64)]


class _Part(ctypes.Structure):
    _fields_ = [("refusal", _u32), ("start", _u64), ("length", _u64)]


class _Report(ctypes.Structure):
    _fields_ = [("verdict", _u32), ("refusal", _u32), ("rule", _u32)] + [
        (name, _u64) for name in ("place", "transfers", "packets", "records", "text", "octets")]


_here = os.path.dirname(os.path.abspath(__file__))
_library = ctypes.CDLL(os.environ.get("URDHVASOLK_LIB") or os.path.join(_here, "..", "..", "build", "lib", "liburdhvasolk.so"))


def _call(name, result, *arguments):
    function = getattr(_library, name)
    function.restype = result
    function.argtypes = arguments
    return function


_input = (ctypes.c_char_p, _size)
_lent = (ctypes.c_void_p, _size)
_burst = (_u32,) * 5
_burst_judge = _call("urd_burst_judge", _Burst, *_burst)
_burst_beat = _call("urd_burst_beat", _Burst, *_burst, _u32)
_burst_step = _call("urd_burst_step", _Burst, *_burst, _u32)
_axi3_cut = _call("urd_axi3_cut", _Cut, *_burst, ctypes.POINTER(_u64), _size)
_judge_writes = _call("urd_judge_writes", _Write, *_burst, *_input)
_shape = (_size, _size)  # width and user, of every stream call
_judge = _call("urd_judge", _Stream, *_shape, *_input)
_harvest = _call("urd_harvest", _Stream, *_shape, *_input, *_lent)
_fill_in = _call("urd_fill_in", _Stream, *_shape, *_lent, _u32)
_repack = _call("urd_repack", _Stream, *_shape, _size, *_input, *_lent)
_downsize = _call("urd_downsize", _Stream, *_shape, _size, *_input, *_lent)
_merge = _call("urd_merge", _Merge, *_shape, *_input, *_input, *_lent)
_data_octets = _call("urd_data_octets", _Part, *_shape, *_input, _size)
_report = _call("urd_report", _Report, *_input, _u32, *_input, _u32, *_lent, *_lent)


def _held(number, kind):
    """The number as an argument of that kind; the largest one where it does not fit."""
    most = 256 ** ctypes.sizeof(kind) - 1
    return number if 0 <= number <= most else most


def _plain(shape, answer):
    return shape(*(getattr(answer, name) for name in shape._fields))


def _read(octets):
    """A copy of the octets of any bytes-like object."""
    return bytes(memoryview(octets))


def _lend(memory):
    """A pointer into the caller's own memory; the caller keeps the view until the call has returned."""
    view = memoryview(memory).cast("B")
    return (ctypes.c_ubyte * len(view)).from_buffer(view)


def _no_start(start):
    """Whether an address is no 32-bit number."""
    return not 0 <= start < 2**32


def _ask_burst(function, start, numbers):
    if _no_start(start):
        return None
    return _plain(BurstAnswer, function(start, *(_held(n, _u32) for n in numbers)))


def burst_judge(start, len_, size, kind, bus):
    """Whether the burst is allowed: refusal 0, or 7 to 12."""
    return _ask_burst(_burst_judge, start, (len_, size, kind, bus))


def burst_beat(start, len_, size, kind, bus, k):
    """Beat k: address, lower and upper byte lane. Refusals 7 to 12, then 13."""
    return _ask_burst(_burst_beat, start, (len_, size, kind, bus, k))


def burst_step(start, len_, size, kind, bus, k):
    """The step from beat k to the next. Refusals 7 to 12, then 13."""
    return _ask_burst(_burst_step, start, (len_, size, kind, bus, k))


def axi3_cut(start, len_, size, kind, bus, room=16):
    """The burst cut for AXI3 boards, which take at most 16 beats: `bursts` is a list of 1 to 16 `Burst`s, whose beats, one burst
    after another, are its own; refused, it is empty. Refusals 7 to 12, then 5 where more than `room` are needed; less than
    none counts as none, 16 are always enough."""
    if _no_start(start):
        return None
    numbers = len(Burst._fields)
    row = (_u64 * (numbers * min(max(room, 0), 16)))()
    a = _axi3_cut(start, *(_held(n, _u32) for n in (len_, size, kind, bus)), row, len(row))
    return CutAnswer(a.refusal, [Burst(*row[numbers * j : numbers * (j + 1)]) for j in range(a.count)])


def judge_writes(start, len_, size, kind, bus, beats):
    """The write beats of a burst: octet 0 of each WLAST, then WSTRB, low octet first. Clean: rule 0 and the number of high
    strobes. Broken: the lowest rule at beat `place`, the first one: 1 a strobe high outside the lanes of the beat, 2 WLAST before
    the last beat, 3 the last beat without WLAST, 4 a beat past the last; 5 too few beats, `place` being how many were given.
    Refusals 7 to 12, then 2, 3."""
    if _no_start(start):
        return None
    beats = _read(beats)
    return _plain(WriteAnswer, _judge_writes(start, *(_held(n, _u32) for n in (len_, size, kind, bus)), beats, len(beats)))


def _sizes(*numbers):
    return (_held(n, _size) for n in numbers)


def judge(width, user, capture):
    """Clean: rule 0 and the count of transfers. Broken: the lowest rule at cycle `place`, the earliest one: 1 TVALID high with
    ARESETn low now or in the cycle before, 2 TVALID gone while it waited for TREADY, 3 TLAST or an octet from 1 on changed
    while it waited, 4 a reserved lane. Refusals 1, 16, 2, 3."""
    capture = _read(capture)
    return _plain(StreamAnswer, _judge(*_sizes(width, user), capture, len(capture)))


def harvest(width, user, capture, out):
    """Writes the transfers of a clean capture into out: count of records. Refusals 1, 16, 2, 3, 14, 5."""
    capture, lent = _read(capture), _lend(out)
    return _plain(StreamAnswer, _harvest(*_sizes(width, user), capture, len(capture), ctypes.addressof(lent), len(lent)))


def fill_in(width, user, capture, level):
    """Sets TLAST of every record in the lent capture, for ports with no TLAST wire: count of records. False or 0 as the level is
    low, True or any other whole number high; anything else, the text "low" too, raises TypeError. Refusals 1, 16, 2."""
    lent = _lend(capture)
    high = int(operator.index(level) != 0)
    return _plain(StreamAnswer, _fill_in(*_sizes(width, user), ctypes.addressof(lent), len(lent), high))


def _convert(function, width, user, v, octets, out):
    octets, lent = _read(octets), _lend(out)
    answer = function(*_sizes(width, user, v), octets, len(octets), ctypes.addressof(lent), len(lent))
    return _plain(StreamAnswer, answer)


def repack(width, user, v, octets, out):
    """Writes the packed form at width v of transfer records into out, each byte with its user bits: count of records, the least
    of any legal stream of width v and the same user that carries the same bytes, user bits and packet ends, with their TIDs and
    TDESTs, in the same order (T-07). 377,424 octets are always enough. Refusals 1, 16, 2, 3, 4, 5."""
    return _convert(_repack, width, user, v, octets, out)


def downsize(width, user, v, octets, out):
    """Cuts transfer records into width/v records each, lane by lane, into out. Refusals 1, 16, 6, 2, 3, 4, 5."""
    return _convert(_downsize, width, user, v, octets, out)


def merge(width, user, first, second, out):
    """Merges the transfer records of port 0 and of port 1 into out by turns, port 0 first: count of records. A turn is a port's records up
    to and with its next TLAST, or to the end of its list; a port with nothing left is skipped. Every record goes out as it is, but port 1's
    TIDs have 128 added. `out` needs the octets of both lists together. Refusals 1, 16, 2 of the first list, 2 of the second, then 3, 4
    and 17 (a TID of 128 or more) of the first list's records, then of the second's, 5; `port` says whose, and is 0 for 1, 16 and 5."""
    first, second, lent = _read(first), _read(second), _lend(out)
    answer = _merge(*_sizes(width, user), first, len(first), second, len(second), ctypes.addressof(lent), len(lent))
    return _plain(MergeAnswer, answer)


def data_octets(width, user, capture, k):
    """Where the data octets of record k stand in the capture: start and length. Refusals 1, 16, 2, 13."""
    capture = _read(capture)
    return _plain(PartAnswer, _data_octets(*_sizes(width, user), capture, len(capture), _held(k, _size)))


def _file(octets):
    """The octets of a file, their number, and whether it was read."""
    read = b"" if octets is None else _read(octets)
    return read, len(read), int(octets is not None)


def report(sheet, take):
    """The report on a take by its setup sheet, each None where it can't be read: verdict and numbers, the lines as a str, and
    the octets of the result, none unless clean. In the sheet tlast=none fills in high, tlast=low low; before T-03 none was low.
    Since T-06 a sheet has a fifth line, user=0 to user=9. Refusals 15, 1, 16, 6, 2, 3, 5, the last for a result above 65,536 octets."""
    out, text = bytearray(65536), bytearray(128)
    lent_out, lent_text = _lend(out), _lend(text)
    a = _report(*_file(sheet), *_file(take), ctypes.addressof(lent_out), len(out), ctypes.addressof(lent_text), len(text))
    numbers = (getattr(a, name) for name in ReportAnswer._fields[:7])
    return ReportAnswer(*numbers, text[:a.text].decode("ascii"), bytes(out[:a.octets]))
