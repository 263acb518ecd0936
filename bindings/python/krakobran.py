"""Krakobran from Python: packet reordering after RFC 4737, measured on a sample file or arrival by arrival.

    import krakobran

    sample = krakobran.Sample.open("link.sample")
    print(sample.label, sample.counts().reordered, sample.needs().time)
    for row in sample.records():
        print(row.kind.name, row.extent)

    receiver = krakobran.Receiver(sent=6)
    print(receiver.step(number=1, time=10))

Every call of include/krakobran.h is here, over the shared object and by ctypes alone. A call that the library refuses raises
`Refused`, which has the refusal's number and its words; what the call would have filled is then untouched. An integer that does not fit
the field that it goes to raises OverflowError before the library is called.

Times are in microseconds, from any moment. Records, positions and lines are counted from 1. K is the number of sent packets, A that of
arrivals, L that of first arrivals.

The shared object is the one that KRAKOBRAN_LIBRARY names in the environment; else the first that there is of those beside this file, built in
its checkout, and installed with it; else what the system's loader finds. One thread may use a `Receiver` or a `Meter` at a time; everything
else may be called from many."""

import ctypes
import enum
import os
from ctypes import c_char_p, c_uint8, c_uint16, c_uint32, c_uint64
from typing import List, NamedTuple, Optional, Sequence, Tuple, Union

VERSION = "0.12.0"

LABEL_MOST = 64
SENT_MOST = 4096
ARRIVALS_MOST = 4096
TIME_BACK_MOST = 1000
DEGREE_MOST = 100
KEPT_MOST = 48
WINDOW_PLACES = 64
TALLY_PLACES = 101
SWEEP_TABLE_PLACES = 4096
ROW_NUMBERS = 8
STEP_PLACES = 128
TABLE_PARTS = 18
FILE_OCTETS = 57414
OWAMP_RECORD_OCTETS = 25
REPORT_OCTETS = 262144
TABLE_PART_OCTETS = 131072
SUMMARY_OCTETS = 2048
FOLLOW_OCTETS = 256
SUMMARY_ALL_OCTETS = 200704
LABEL_JSON_OCTETS = 139
WORDS_OCTETS = 128


class Refused(ValueError):
    """The library refused its input. `number` is the refusal, from 1 to 18; `line` is the first refused line of a text log, from 1,
    and None elsewhere."""

    def __init__(self, number: int, line: Optional[int] = None):
        where = "" if line is None else f", line {line}"
        super().__init__(f"refused {number}{where}: {refusal_words(number)}")
        self.number = number
        self.line = line


class Kind(enum.IntEnum):
    """The case of a record or of an arrival; the last two are a receiver's or a meter's only."""

    IN_ORDER = 0
    REORDERED_AFTER = 1  # stamped at or after its discontinuity
    REORDERED_BEFORE = 2  # stamped before its discontinuity
    DUPLICATE = 3
    BEYOND_AFTER = 4  # reordered, its discontinuity dropped; stamped at or after the oldest kept jump
    BEYOND_BEFORE = 5  # reordered, its discontinuity dropped; stamped before the oldest kept jump


class Measure(enum.IntEnum):
    """What the size of a buffer counts."""

    PACKETS = 0
    OCTETS = 1
    TIME = 2


class Fault(enum.IntEnum):
    """What is wrong first with a line of a text log."""

    NONE = 0  # it is of the form, and its number fits; if it is refused with 14, its time is over the range
    BYTE_ORDER_MARK = 1
    EMPTY_LINE = 2
    NO_DIGIT = 3  # it does not begin with a digit, or is empty
    CARRIAGE_RETURN = 4
    NO_LINE_FEED = 5
    NUMBER_OVER = 6  # its number is over 32 bits
    MANY_DECIMALS = 7  # its time has more than three decimals
    OTHER = 8


# ---- answers


class Layout(NamedTuple):
    """What is found in a file: octets of the label, K and A."""

    label: int
    sent: int
    arrivals: int


class Lists(NamedTuple):
    """The lists of a sample: payload sizes of the sent packets; sequence numbers and times of the arrivals."""

    sizes: List[int]
    numbers: List[int]
    times: List[int]


class Row(NamedTuple):
    """The figures of a record: its case; position, if it is a first arrival; jump size, if in order; extent, amount of the late time, byte
    offset and largest n, if reordered; the record of the first copy, if a duplicate. What a case does not have is 0."""

    kind: Kind
    position: int
    jump: int
    extent: int
    late: int
    offset: int
    largest: int
    first: int


class Swept(NamedTuple):
    """The case of a record, its position, its extent and the amount of its late time; what it does not have is 0."""

    kind: Kind
    position: int
    extent: int
    late: int


class Counts(NamedTuple):
    """First arrivals (L), reordered packets, duplicates, in-order packets; closed runs of in-order packets, the sum of the squares of their
    lengths, and the open one's length."""

    arrived: int
    reordered: int
    duplicates: int
    inorder: int
    closed: int
    squares: int
    current: int


class Share(NamedTuple):
    """Some of the first arrivals, and how many there are (L)."""

    some: int
    arrived: int


class Ratios(NamedTuple):
    """The reordered ratio, and the degrees of n-reordering for n = 1 and n = 3."""

    reordered: float
    degree1: float
    degree3: float


class Needs(NamedTuple):
    """The greatest extent, byte offset and late time of a sample; 0 where nothing is reordered."""

    packets: int
    octets: int
    time: int


class Steps(NamedTuple):
    """First arrivals (L), the greatest need, and how many first arrivals each of the 128 sizes accommodates."""

    arrived: int
    greatest: int
    counts: List[int]


class Verdict(NamedTuple):
    """Whether a report agrees, and the number of its first wrong line; 0 where it agrees."""

    agrees: bool
    line: int


class Worse(NamedTuple):
    """The worse of two samples: 1 for the first and 2 for the second, and its label."""

    link: int
    label: str


class Noted(NamedTuple):
    """What a receiver notes of an arrival: the case; the jump size if in order; extent and the amount of the late time if reordered,
    exact ones or, beyond the window, those of the oldest kept jump."""

    kind: Kind
    jump: int
    extent: int
    late: int


class Followed(NamedTuple):
    """What a receiver says of a line of a text log: the refusal (0 for none), what it notes, and the text, with its line feed."""

    refusal: int
    noted: Noted
    text: str


class Stream(NamedTuple):
    """The numbers that a step decides by: K, first arrivals (L), duplicates, in-order packets, the next expected number, how many jumps are
    kept, the greatest time of the accepted arrivals, the runs as in `Counts`, and the number of the last jump dropped (0 for none)."""

    sent: int
    arrived: int
    duplicates: int
    inorder: int
    next: int
    kept: int
    greatest: int
    closed: int
    squares: int
    current: int
    dropped: int


# ---- the library


class _Stream(ctypes.Structure):
    """krakobran_stream, with the members of its krakobran_runs."""

    _fields_ = (
        [(name, c_uint32) for name in "sent arrived duplicates inorder next kept".split()]
        + [("greatest", c_uint64)]
        + [(name, c_uint32) for name in "closed squares current dropped".split()]
    )


class _Places(ctypes.Structure):
    """krakobran_places."""

    _fields_ = [("positions", c_uint16 * WINDOW_PLACES), ("numbers", c_uint16 * WINDOW_PLACES), ("times", c_uint64 * WINDOW_PLACES)]


class _Receiver(ctypes.Structure):
    """krakobran_receiver."""

    _fields_ = [("stream", _Stream), ("marks", c_uint64 * (SENT_MOST // 64)), ("places", _Places)]


class _StreamState(ctypes.Structure):
    """krakobran_stream_state."""

    _fields_ = [("stream", _Stream), ("marks", c_uint64 * (SENT_MOST // 64))]


class _Meter(ctypes.Structure):
    """krakobran_meter."""

    _fields_ = [("first", _StreamState), ("second", _StreamState), ("places", _Places)]


def _list(number):
    """A list: a pointer and its places."""
    return [ctypes.POINTER(number), c_uint64]


_TEXT = [c_char_p, c_uint64]
_OUT = _list(c_uint8)
_FIGURES = [ctypes.POINTER(c_uint64)]
_RECEIVER = [ctypes.POINTER(_Receiver)]
_METER = [ctypes.POINTER(_Meter)]
_ARRIVALS = _list(c_uint32) + _list(c_uint64)
_CALLS = {
    "sample_check": _TEXT + _FIGURES,
    "sample_read": _TEXT + _list(c_uint16) + _ARRIVALS + _FIGURES,
    "sample_label": _TEXT + _FIGURES,
    "sample_write": _TEXT + _list(c_uint16) + _ARRIVALS + _OUT + _FIGURES,
    "lists_check": [c_uint64] + _ARRIVALS,
    "log_import": _TEXT + [c_uint32] + _ARRIVALS + _FIGURES,
    "log_refused_line": _TEXT + [c_uint32] + _FIGURES,
    "log_read_line": _TEXT + _FIGURES,
    "log_line_fault": _TEXT,
    "text_line": _TEXT + [c_uint64] + _FIGURES,
    "log_import_8": _TEXT + [c_uint32] + _ARRIVALS + _FIGURES,
    "log_import_10": _TEXT + [c_uint32] + _ARRIVALS + _FIGURES,
    "log_refused_line_8": _TEXT + [c_uint32] + _FIGURES,
    "log_refused_line_10": _TEXT + [c_uint32] + _FIGURES,
    "log_write": [c_uint32] + _ARRIVALS + _OUT + _FIGURES,
    "owamp_import": _TEXT + [c_uint32] + _ARRIVALS + _FIGURES,
    "owamp_write": _TEXT + _OUT + _FIGURES,
    "answer": _TEXT + [c_uint32] + _FIGURES,
    "rows": _TEXT + _list(c_uint64),
    "rows_from": _TEXT + [c_uint32] + _list(c_uint64),
    "counts": _TEXT + _FIGURES,
    "tally": _TEXT + [ctypes.POINTER(c_uint32)],
    "gap": _TEXT + [c_uint32] + _FIGURES,
    "gaps": _TEXT + _list(c_uint32),
    "n_reordered": _TEXT + [c_uint32] + _FIGURES,
    "degree": _TEXT + [c_uint32] + _FIGURES,
    "ratios": _TEXT + _FIGURES,
    "disorder": _TEXT + _FIGURES,
    "sweep": _TEXT + _list(c_uint16) + _list(c_uint8) + _list(c_uint32) + _list(c_uint32) + _list(c_uint64),
    "worse": _TEXT + _TEXT + _FIGURES,
    "greatest_needs": _TEXT + _FIGURES,
    "accommodated": _TEXT + [c_uint32, c_uint64] + _FIGURES,
    "accommodated_steps": _TEXT + [c_uint32, c_uint64, c_uint32] + _FIGURES,
    "least_size": _TEXT + [c_uint32, c_uint32, c_uint32] + _FIGURES,
    "report_write": _TEXT + _OUT + _FIGURES,
    "report_check": _TEXT + _TEXT + _FIGURES,
    "summary_write": _TEXT + _OUT + _FIGURES,
    "summary_json": _TEXT + _OUT + _FIGURES,
    "summary_all": _TEXT + _OUT + _FIGURES,
    "label_json": _TEXT + _OUT + _FIGURES,
    "table_csv": _TEXT + [c_uint32] + _OUT + _FIGURES,
    "table_json": _TEXT + [c_uint32] + _OUT + _FIGURES,
    "fragment_order": [c_uint32] + _ARRIVALS + _list(c_uint16) + _list(c_uint8) + _list(c_uint16) + _OUT + _OUT,
    "full_numbers_8": [c_uint32] + _list(c_uint16) + _list(c_uint64) + _list(c_uint32),
    "full_numbers_10": [c_uint32] + _list(c_uint16) + _list(c_uint64) + _list(c_uint32),
    "receiver_fresh": _RECEIVER + [c_uint32],
    "receiver_step": _RECEIVER + [c_uint32, c_uint64] + _FIGURES,
    "follow_line": _TEXT + [c_uint64] + _FIGURES + _OUT + _FIGURES,
    "follow_counts": [c_uint32] * 5 + _OUT + _FIGURES,
    "receiver_step_8": _RECEIVER + [c_uint16, c_uint64] + _FIGURES,
    "receiver_step_10": _RECEIVER + [c_uint16, c_uint64] + _FIGURES,
    "meter_new": _METER,
    "meter_start": _METER + [c_uint32, c_uint32],
    "meter_step": _METER + [c_uint32, c_uint32, c_uint64] + _FIGURES,
    "refusal_words": [c_uint64] + _OUT + _FIGURES,
    "version": [],
}
"""The parameters of each call, in the header's order. Figures are passed as numbers of 64 bits."""

_NO_RESULT = ("log_refused_line", "log_refused_line_8", "log_refused_line_10", "text_line", "meter_new")


def _found() -> ctypes.CDLL:
    """The shared object."""
    major, minor, _ = VERSION.split(".")
    name = "libkrakobran.so." + (f"0.{minor}" if major == "0" else major)
    here = os.path.dirname(os.path.abspath(__file__))
    beside = [(name,), ("..", "..", "target", "libkrakobran.so"), ("..", "..", "..", "lib", name)]
    paths = [path for path in (os.path.join(here, *parts) for parts in beside) if os.path.exists(path)]
    try:
        return ctypes.CDLL(os.environ.get("KRAKOBRAN_LIBRARY") or (paths + [name])[0])
    except OSError as error:
        raise ImportError(f"{error}; KRAKOBRAN_LIBRARY names the shared object of Krakobran") from None


def _bound() -> dict:
    """The calls of the shared object by their names, with the types of their parameters."""
    library, calls = _found(), {}
    for name, parameters in _CALLS.items():
        try:
            call = getattr(library, f"krakobran_{name}")
        except AttributeError:
            raise ImportError(f"{library._name} has no krakobran_{name}: it is not of version {VERSION}") from None
        call.argtypes = parameters
        call.restype = None if name in _NO_RESULT else c_uint64
        calls[name] = call
    if calls["version"]() // 1000 != _number(VERSION) // 1000:
        raise ImportError(f"{library._name} is of version {_version(calls['version']())}, and not {VERSION}")
    return calls


def _number(version: str) -> int:
    """A version as the library tells it."""
    major, minor, patch = map(int, version.split("."))
    return 1000000 * major + 1000 * minor + patch


def _version(number: int) -> str:
    """The version that the library tells so."""
    return f"{number // 1000000}.{number // 1000 % 1000}.{number % 1000}"


_calls = _bound()


def _call(name: str, *arguments) -> None:
    """Calls the library; raises its refusal."""
    flat: list = []
    for argument in arguments:
        if isinstance(argument, tuple):
            flat.extend(argument)
        else:
            flat.append(argument)
    refusal = _calls[name](*flat)
    if refusal:
        raise Refused(refusal)


def _text(octets: bytes) -> tuple:
    """Octets as a list that is only read."""
    own = bytes(octets)
    return own, len(own)


def _encoded(text: Union[str, bytes]) -> bytes:
    """The octets of a text, of which those that are not ASCII are left for the library to refuse."""
    return text.encode("utf-8", "surrogatepass") if isinstance(text, str) else text


def _fitting(value: int, number) -> int:
    """An integer that fits a type, which ctypes would cut otherwise."""
    if not 0 <= value < 1 << 8 * ctypes.sizeof(number):
        raise OverflowError(f"{value} does not fit {8 * ctypes.sizeof(number)} bits")
    return value


def _given(values: Sequence[int], number) -> tuple:
    """Integers as a list that is only read."""
    return (number * len(values))(*(_fitting(value, number) for value in values)), len(values)


def _room(places: int, number) -> tuple:
    """A list to be filled."""
    return (number * places)(), places


def _figures(count: int):
    """Figures to be set."""
    return (c_uint64 * count)()


def _written(name: str, *arguments, room: int) -> bytes:
    """What a call writes that ends with room for octets and their number."""
    out, length = _room(room, c_uint8), _figures(1)
    _call(name, *arguments, out, length)
    return ctypes.string_at(out[0], length[0])


def refusal_words(number: int) -> str:
    """The words of a refusal. Raises ValueError for a number that is none."""
    out, length = _room(WORDS_OCTETS, c_uint8), _figures(1)
    if _calls["refusal_words"](_fitting(number, c_uint64), *out, length):
        raise ValueError(f"{number} is no refusal")
    return ctypes.string_at(out[0], length[0]).decode("ascii")


def library_version() -> str:
    """The version of the library."""
    return _version(_calls["version"]())


def _double(bits: int) -> float:
    """The double of these bits."""
    return ctypes.c_double.from_buffer_copy(c_uint64(bits)).value


# ---- samples


class Sample:
    """A sample: a label, the payload sizes of the packets sent, and the arrivals. It is made of the octets of a sample file, which are
    checked, and does not change."""

    def __init__(self, octets: bytes):
        """The sample of a file's octets. Refused as krakobran_sample_check says: 1 to 7 and 13."""
        self._file = _text(octets)
        found = _figures(3)
        _call("sample_check", self._file, found)
        self._layout = Layout(*found)

    @classmethod
    def open(cls, path: Union[str, os.PathLike]) -> "Sample":
        """The sample of a file."""
        with open(path, "rb") as file:
            return cls(file.read())

    @classmethod
    def of(cls, label: Union[str, bytes], sizes: Sequence[int], numbers: Sequence[int], times: Sequence[int]) -> "Sample":
        """The sample of a label and lists. Refused: 3, 13, 4, 5, 12, 6, 7."""
        return cls(
            _written(
                "sample_write",
                _text(_encoded(label)),
                _given(sizes, c_uint16),
                _given(numbers, c_uint32),
                _given(times, c_uint64),
                room=FILE_OCTETS,
            )
        )

    @classmethod
    def from_log(
        cls, log: Union[str, bytes], sent: int, size: int, label: Union[str, bytes] = "", bits: Optional[int] = None
    ) -> "Sample":
        """The sample of a supplier's text log of `sent` packets, each with a payload of `size` octets; with `bits`, 8 or 10, the log's
        numbers are short, and the sample has the full ones. Refused as `import_log` says; then 3 and 13 by the label."""
        numbers, times = import_log(log, sent, bits)
        return cls.of(label, [size] * sent, numbers, times)

    @classmethod
    def from_owamp(cls, records: bytes, sent: int, size: int, label: Union[str, bytes] = "") -> "Sample":
        """The sample of OWAMP packet records of `sent` packets, each with a payload of `size` octets."""
        numbers, times = import_owamp(records, sent)
        return cls.of(label, [size] * sent, numbers, times)

    @property
    def octets(self) -> bytes:
        """The octets of the sample file."""
        return self._file[0]

    @property
    def layout(self) -> Layout:
        """Octets of the label, K and A."""
        return self._layout

    @property
    def label(self) -> str:
        """The label."""
        part = _figures(2)
        _call("sample_label", self._file, part)
        return self.octets[part[0] : part[0] + part[1]].decode("ascii")

    def save(self, path: Union[str, os.PathLike]) -> None:
        """Writes the sample file."""
        with open(path, "wb") as file:
            file.write(self.octets)

    def lists(self) -> Lists:
        """Payload sizes, sequence numbers and times."""
        sizes = _room(self._layout.sent, c_uint16)
        numbers, times = _room(self._layout.arrivals, c_uint32), _room(self._layout.arrivals, c_uint64)
        _call("sample_read", self._file, sizes, numbers, times, _figures(3))
        return Lists(list(sizes[0]), list(numbers[0]), list(times[0]))

    def records(self) -> List[Row]:
        """The figures of every record, in one pass."""
        numbers = _room(ROW_NUMBERS * self._layout.arrivals, c_uint64)
        _call("rows", self._file, numbers)
        flat = list(numbers[0])
        return [_row(flat[i : i + ROW_NUMBERS]) for i in range(0, len(flat), ROW_NUMBERS)]

    def records_from(self, start: int, most: int) -> List[Row]:
        """The figures of at most so many records, the first `start` left out: records()[start : start + most]."""
        count = max(0, min(most, self._layout.arrivals - start))
        numbers = _room(ROW_NUMBERS * count, c_uint64)
        _call("rows_from", self._file, _fitting(start, c_uint32), numbers)
        flat = list(numbers[0])
        return [_row(flat[i : i + ROW_NUMBERS]) for i in range(0, len(flat), ROW_NUMBERS)]

    def answer(self, record: int) -> Row:
        """The figures of a record. Refused: 9 for a record outside 1 to A."""
        row = _figures(ROW_NUMBERS)
        _call("answer", self._file, _fitting(record, c_uint32), row)
        return _row(row)

    def sweep(self) -> List[Swept]:
        """Case, position, extent and late time of every record, by the library's second engine."""
        arrivals = self._layout.arrivals
        kinds, positions = _room(arrivals, c_uint8), _room(arrivals, c_uint32)
        extents, lates = _room(arrivals, c_uint32), _room(arrivals, c_uint64)
        _call("sweep", self._file, _room(SWEEP_TABLE_PLACES, c_uint16), kinds, positions, extents, lates)
        return [Swept(Kind(kind), *rest) for kind, *rest in zip(kinds[0], positions[0], extents[0], lates[0])]

    def counts(self) -> Counts:
        """The counts of the sample."""
        counts = _figures(7)
        _call("counts", self._file, counts)
        return Counts(*counts)

    def tally(self) -> List[int]:
        """The extent tally, 101 numbers: at place e from 1 to 100 how many extents are e, at place 0 how many are greater."""
        tally = _room(TALLY_PLACES, c_uint32)[0]
        _call("tally", self._file, tally)
        return list(tally)

    def gap(self, record: int) -> Optional[int]:
        """The gap of a record in positions, None if it has none. Refused: 9 for a record outside 1 to A."""
        gap = _figures(2)
        _call("gap", self._file, _fitting(record, c_uint32), gap)
        return gap[1] if gap[0] else None

    def gaps(self) -> List[Optional[int]]:
        """The gap of every record in positions, None where there is none; in one pass."""
        gaps = _room(self._layout.arrivals, c_uint32)
        _call("gaps", self._file, gaps)
        return [gap or None for gap in gaps[0]]

    def n_reordered(self, n: int) -> Share:
        """How many packets are n-reordered, and of how many. Refused: 9 for n outside 1 to 100."""
        counts = _figures(2)
        _call("n_reordered", self._file, _fitting(n, c_uint32), counts)
        return Share(*counts)

    def degree(self, n: int) -> Optional[float]:
        """The degree of n-reordering, None if it is undefined. Refused: 9 for n outside 1 to 100."""
        degree = _figures(2)
        _call("degree", self._file, _fitting(n, c_uint32), degree)
        return _double(degree[1]) if degree[0] else None

    def ratios(self) -> Optional[Ratios]:
        """The ratios of the sample, None if they are undefined."""
        ratios = _figures(4)
        _call("ratios", self._file, ratios)
        return Ratios(*(_double(bits) for bits in ratios[1:])) if ratios[0] else None

    def disorder(self) -> int:
        """The total of disorder: how many pairs of first arrivals came in the wrong order."""
        total = _figures(1)
        _call("disorder", self._file, total)
        return total[0]

    def needs(self) -> Needs:
        """What the packet that needs most needs of the buffer of a receiver that restores order, by each measure."""
        needs = _figures(3)
        _call("greatest_needs", self._file, needs)
        return Needs(*needs)

    def accommodated(self, measure: Measure, size: int) -> Share:
        """How many first arrivals need no more than a buffer of this size has, and of how many. Refused: 9 for a measure that is none."""
        counts = _figures(2)
        _call("accommodated", self._file, _fitting(measure, c_uint32), _fitting(size, c_uint64), counts)
        return Share(*counts)

    def accommodated_steps(self, measure: Measure, low: int = 0, shift: int = 0) -> Steps:
        """What buffers of 128 sizes accommodate, from `low` on and 2^shift apart; and the greatest need. One call is one pass over the
        file, as one of `accommodated` is. Refused: 9 for a measure that is none."""
        steps = _figures(2 + STEP_PLACES)
        sizes = _fitting(low, c_uint64), _fitting(shift, c_uint32)
        _call("accommodated_steps", self._file, _fitting(measure, c_uint32), sizes, steps)
        return Steps(steps[0], steps[1], steps[2:])

    def least_size(self, measure: Measure, part: int, whole: int) -> int:
        """The least size of a buffer that accommodates at least `part` in `whole` of the first arrivals. Refused: 9 for a measure that is
        none, and for a part outside 1 to whole."""
        size = _figures(1)
        share = _fitting(part, c_uint32), _fitting(whole, c_uint32)
        _call("least_size", self._file, _fitting(measure, c_uint32), share, size)
        return size[0]

    def report(self) -> str:
        """The report."""
        return _written("report_write", self._file, room=REPORT_OCTETS).decode("ascii")

    def table_csv(self) -> str:
        """Every record with named fields: a line of names, a line for each record, and one for the counts, separated by commas."""
        return self._table("table_csv")

    def table_json(self) -> str:
        """The same as one object of JSON and a line feed, with the label."""
        return self._table("table_json")

    def _table(self, name: str) -> str:
        """The parts of a table, one after the other."""
        parts = (_written(name, self._file, part, room=TABLE_PART_OCTETS) for part in range(TABLE_PARTS))
        return b"".join(parts).decode("ascii")

    def check(self, report: Union[str, bytes]) -> Verdict:
        """Whether a report is the one that the sample must give, or the number of its first wrong line."""
        verdict = _figures(2)
        _call("report_check", self._file, _text(_encoded(report)), verdict)
        return Verdict(bool(verdict[0]), verdict[1])

    def summary(self) -> str:
        """The summary: counts, least sizes for some shares of the packets, ratios, total of disorder."""
        return _written("summary_write", self._file, room=SUMMARY_OCTETS).decode("ascii")

    def summary_json(self) -> str:
        """The same as one object of JSON, with the label; times are in microseconds."""
        return _written("summary_json", self._file, room=SUMMARY_OCTETS).decode("ascii")

    def summary_all(self) -> str:
        """The summary, and the other figures of the whole sample: tally of extents, n-reordering for n = 1 to 10, gaps, runs."""
        return _written("summary_all", self._file, room=SUMMARY_ALL_OCTETS).decode("ascii")

    def log(self) -> bytes:
        """The arrivals as a text log."""
        lists = self.lists()
        return write_log(self._layout.sent, lists.numbers, lists.times)

    def owamp(self) -> bytes:
        """The arrivals as OWAMP packet records. Refused: 18."""
        return _written("owamp_write", self._file, room=OWAMP_RECORD_OCTETS * self._layout.arrivals)


def _row(figures: Sequence[int]) -> Row:
    """A row of eight numbers."""
    return Row(Kind(figures[0]), *figures[1:])


def label_json(label: Union[str, bytes]) -> str:
    """The start of an object of JSON, with a label as its first member: `{"label":"roof"`. A quote and a backslash are escaped, and
    nothing else, since a sample's label has nothing else that needs it. Refused: 3."""
    return _written("label_json", _text(_encoded(label)), room=LABEL_JSON_OCTETS).decode("utf-8", "surrogatepass")


def worse(first: Sample, second: Sample) -> Worse:
    """Of two samples the one with the greater reordered ratio; equal ratios give the first, and an undefined one counts as 0."""
    found = _figures(3)
    _call("worse", _text(first.octets), _text(second.octets), found)
    octets = (first if found[0] == 1 else second).octets
    return Worse(found[0], octets[found[1] : found[1] + found[2]].decode("ascii"))


# ---- lists of arrivals


def check_lists(sent: int, numbers: Sequence[int], times: Sequence[int]) -> None:
    """Raises what is refused of K and lists of numbers and times: 4, 5, 12, 6, 7."""
    _call("lists_check", _fitting(sent, c_uint64), _given(numbers, c_uint32), _given(times, c_uint64))


def import_log(log: Union[str, bytes], sent: int, bits: Optional[int] = None) -> Tuple[List[int], List[int]]:
    """Numbers and times of a supplier's text log; with `bits`, 8 or 10, its numbers are short, and the full ones are returned.
    Refused: 4; 14, 5, 6 and 7 with the line."""
    try:
        return _imported("log_import" + _width(bits), _encoded(log), sent)
    except Refused as refused:
        raise Refused(refused.number, refused_line(log, sent, bits) or None) from None


def _width(bits: Optional[int]) -> str:
    """The end of a call's name for short numbers of a width, nothing for whole ones."""
    if bits not in (None, 8, 10):
        raise ValueError(f"short numbers have 8 or 10 bits, not {bits}")
    return f"_{bits}" if bits else ""


def read_line(line: Union[str, bytes]) -> Tuple[int, int]:
    """Number and time of one line of a text log, with its line feed. Refused: 14."""
    arrival = _figures(2)
    _call("log_read_line", _text(_encoded(line)), arrival)
    return arrival[0], arrival[1]


def line_fault(line: Union[str, bytes]) -> Fault:
    """What is wrong first with one line of a text log, given with its line feed: why it is refused with 14."""
    return Fault(_calls["log_line_fault"](*_text(_encoded(line))))


def text_line(text: Union[str, bytes], n: int) -> bytes:
    """Line n of a text, here from 0, with its line feed; empty if there is none."""
    octets, part = _encoded(text), _figures(2)
    _call("text_line", _text(octets), _fitting(n, c_uint64), part)
    return octets[part[0] : part[0] + part[1]]


def import_owamp(records: bytes, sent: int) -> Tuple[List[int], List[int]]:
    """Numbers and times of OWAMP packet records, in the order of the receive times. Refused: 15, 4, 5, 6."""
    return _imported("owamp_import", records, sent)


def _imported(name: str, octets: bytes, sent: int) -> Tuple[List[int], List[int]]:
    """The two lists that a call fills, as long as it says."""
    numbers, times, arrivals = _room(ARRIVALS_MOST, c_uint32), _room(ARRIVALS_MOST, c_uint64), _figures(1)
    _call(name, _text(octets), _fitting(sent, c_uint32), numbers, times, arrivals)
    return numbers[0][: arrivals[0]], times[0][: arrivals[0]]


def refused_line(log: Union[str, bytes], sent: int, bits: Optional[int] = None) -> int:
    """The number of the first refused line of a text log, from 1; 0 where no line is refused, or K itself is."""
    line = _figures(1)
    _call("log_refused_line" + _width(bits), _text(_encoded(log)), _fitting(sent, c_uint32), line)
    return line[0]


def write_log(sent: int, numbers: Sequence[int], times: Sequence[int]) -> bytes:
    """The text log of arrivals. Refused: 4, 5, 12, 6, 7."""
    # The longest line has a number of 4 digits, a semicolon, 17 digits, a comma, 3 decimals and a line feed.
    arrivals = _given(numbers, c_uint32), _given(times, c_uint64)
    return _written("log_write", _fitting(sent, c_uint32), *arrivals, room=27 * len(numbers))


def full_numbers_8(sent: int, shorts: Sequence[int], times: Sequence[int]) -> List[int]:
    """The numbers found of short ones of 8 bits. Refused: 4, 5, 12, 6, 7."""
    return _full_numbers("full_numbers_8", sent, shorts, times)


def full_numbers_10(sent: int, shorts: Sequence[int], times: Sequence[int]) -> List[int]:
    """The numbers found of short ones of 10 bits. Refused: 4, 5, 12, 6, 7."""
    return _full_numbers("full_numbers_10", sent, shorts, times)


def _full_numbers(name: str, sent: int, shorts: Sequence[int], times: Sequence[int]) -> List[int]:
    numbers = _room(len(shorts), c_uint32)
    _call(name, _fitting(sent, c_uint32), _given(shorts, c_uint16), _given(times, c_uint64), numbers)
    return list(numbers[0])


def fragment_order(
    sent: int, numbers: Sequence[int], times: Sequence[int], lengths: Sequence[int], mores: Sequence[int], offsets: Sequence[int]
) -> Tuple[List[Kind], List[bool]]:
    """The order flag of each arrival of fragments (RFC 4737, Appendix B), of which REORDERED_AFTER says no more than reordered; and whether
    the arrival is usable. `mores` are the more-fragments flags, `offsets` are in units of 8 octets. Refused: 4, 5, 12, 6, 17, 7."""
    flags, usable = _room(len(numbers), c_uint8), _room(len(numbers), c_uint8)
    arrivals = _given(numbers, c_uint32), _given(times, c_uint64)
    pieces = _given(lengths, c_uint16), _given(mores, c_uint8), _given(offsets, c_uint16)
    _call("fragment_order", _fitting(sent, c_uint32), *arrivals, *pieces, flags, usable)
    return [Kind(flag) for flag in flags[0]], [bool(use) for use in usable[0]]


# ---- arrivals one at a time


class Receiver:
    """Follows the arrivals of K sent packets one at a time, in a state of 1,328 octets. It accepts 4,096 arrivals, copies among them; then
    each step is refused by 11, its counts are final, and a new Receiver takes the next arrivals."""

    def __init__(self, sent: int):
        """A fresh receiver for `sent` packets. Refused: 4."""
        self._state = _Receiver()
        _call("receiver_fresh", self._state, _fitting(sent, c_uint32))

    @classmethod
    def load(cls, octets: bytes) -> "Receiver":
        """A receiver that was saved on a machine with this order of octets. Its first step is refused by 10 if it is unfit."""
        receiver = cls(1)
        receiver._state = _loaded(_Receiver, octets)
        return receiver

    def save(self) -> bytes:
        """The receiver's memory."""
        return bytes(self._state)

    @property
    def stream(self) -> Stream:
        """The receiver's numbers."""
        return _stream(self._state.stream)

    def step(self, number: int, time: int) -> Noted:
        """Steps by an arrival. Refused, and then unchanged: 10 for an unfit state, 11, 6, 7, 10 for a reordered packet with no greater kept
        jump."""
        return _noted("receiver_step", self._state, _fitting(number, c_uint32), time)

    def follow(self, line: Union[str, bytes]) -> Followed:
        """Steps by a line of a text log, with its line feed, and says of it what `krakobran follow` does. Nothing is raised: a refused line
        has its refusal, 14 or one of `step`, and leaves the receiver unchanged."""
        read, arrival, noted = _text(_encoded(line)), _figures(2), _figures(4)
        refusal = _calls["log_read_line"](*read, arrival) or _calls["receiver_step"](self._state, *arrival, noted)
        text = _written("follow_line", read, refusal, noted, room=FOLLOW_OCTETS).decode("ascii")
        return Followed(refusal, Noted(Kind(noted[0]), *noted[1:]), text)

    def counts_text(self) -> str:
        """The receiver's counts, as `krakobran follow` prints them at its end."""
        of = self.stream
        counts = of.arrived, of.inorder, of.duplicates, of.closed, of.current
        return _written("follow_counts", counts, room=FOLLOW_OCTETS).decode("ascii")

    def step_8(self, short: int, time: int) -> Noted:
        """Steps by the number found of a short one of 8 bits. Refused as `step`, 6 also for a short number over its width."""
        return _noted("receiver_step_8", self._state, _fitting(short, c_uint16), time)

    def step_10(self, short: int, time: int) -> Noted:
        """Steps by the number found of a short one of 10 bits, as `step_8`."""
        return _noted("receiver_step_10", self._state, _fitting(short, c_uint16), time)


class Meter:
    """Follows two streams of arrivals, 1 and 2, that share 64 places for their kept jumps, in a state of 1,888 octets. A stream accepts
    4,096 arrivals; then each of its steps is refused by 11 until it is started again."""

    def __init__(self) -> None:
        """A new meter: both streams fresh for a single packet."""
        self._state = _Meter()
        _call("meter_new", self._state)

    @classmethod
    def load(cls, octets: bytes) -> "Meter":
        """A meter that was saved on a machine with this order of octets. Its first step or start is refused by 10 if it is unfit."""
        meter = cls()
        meter._state = _loaded(_Meter, octets)
        return meter

    def save(self) -> bytes:
        """The meter's memory."""
        return bytes(self._state)

    def stream(self, stream: int) -> Stream:
        """The numbers of a stream."""
        if stream not in (1, 2):
            raise Refused(16)
        return _stream((self._state.first if stream == 1 else self._state.second).stream)

    def start(self, stream: int, sent: int) -> None:
        """Starts a stream afresh for `sent` packets. Refused, and then unchanged: 16, 10, 4."""
        _call("meter_start", self._state, _fitting(stream, c_uint32), _fitting(sent, c_uint32))

    def step(self, stream: int, number: int, time: int) -> Noted:
        """Steps a stream by an arrival. Refused, and then unchanged: 16, 10, 11, 6, 7, 10."""
        return _noted("meter_step", self._state, _fitting(stream, c_uint32), _fitting(number, c_uint32), time)


def _loaded(state, octets: bytes):
    """A state of saved octets."""
    if len(octets) != ctypes.sizeof(state):
        raise ValueError(f"{len(octets)} octets, and not {ctypes.sizeof(state)}")
    return state.from_buffer_copy(octets)


def _stream(stream: _Stream) -> Stream:
    """The numbers of a stream, as a tuple."""
    return Stream(*(getattr(stream, name) for name in Stream._fields))


def _noted(name: str, state, *arguments) -> Noted:
    """What a step notes; its last argument is the time."""
    noted = _figures(4)
    _call(name, state, *arguments[:-1], _fitting(arguments[-1], c_uint64), noted)
    return Noted(Kind(noted[0]), *noted[1:])
