"""Foldflake from Python: travel sheets for die carts and press tables, over the proved entry points of libfoldflake.so.

One file without dependencies, for Python 3.8 and later. Blocks, batches and the texts of refusals work on every machine. The other calls need
libfoldflake.so, which is for x86-64 Linux and is loaded at the first of them: from the folder or the file that FOLDFLAKE_LIB names, else from where
`./foldflake install` puts it, else from target/staticlib of the repository, else as the system finds it.

An outline is a list of 1 to 64 points (x, y), in any order, or the same numbers in one flat list. A rotation is a cosine and a sine. Numbers are rounded to
f32 where they are handed over; the calls whose names end in 64 take them as they are. Every call has an answer, whatever it is given: what lies outside the
domain raises a Refusal with its number.

Read Status before you rely on a sweep: SEPARATED does not clear a move that turns. clearance does: what it answers holds at every moment of the move.

>>> square = [(-1, -1), (1, -1), (1, 1), (-1, 1)]
>>> cart = Body(square, Move(first=(0, 0), last=(8, 0)))
>>> table = Body(square, still(6, 0))
>>> found = sweep(cart, table, slop=0.01)
>>> found.status, round(found.fraction, 2)
(<Status.HIT: 'H'>, 0.5)
>>> clearance(cart, table, slop=0.01).verdict
<Verdict.TOUCH: 'TOUCH'>

Calls keep nothing from one to the next. They may run in several threads at once, each Cache in one call at a time; the interpreter's lock is not held while
the library works.
"""
from __future__ import annotations

import ctypes
import enum
import math
import os
import struct
from dataclasses import dataclass
from typing import Any, BinaryIO, Dict, Iterable, Iterator, List, NamedTuple, Optional, Sequence, Sized, Tuple, Type, Union

__version__ = "1.0.0"

__all__ = [
    "BLOCK_BYTES", "Body", "Cache", "Clearance", "Corners", "Distance", "Ending", "Job", "Move", "NoLibrary", "Outline", "Pair", "Pose", "Refusal", "Route",
    "RouteClearance", "RouteRefusal", "RouteStatus", "Status", "Sweep", "Verdict", "Waypoint", "bar", "clearance", "distance", "distance64", "gap", "line",
    "load", "placed_bar", "placed_plate", "plate", "pose", "read_batch", "refusal_text", "root", "root64", "rotation", "route", "route_clearance", "sheet",
    "still", "sweep", "sweep64", "write_batch",
]

Pair = Tuple[float, float]
Outline = Union[Sequence[Pair], Sequence[float]]

BLOCK_BYTES = 512

_WRONG_LENGTH = 255

_TEXTS = {
    1: "outline A is empty, of odd length, or above 64 points",
    2: "outline B is empty, of odd length, or above 64 points",
    3: "a point's part or a half size is not finite or above 1048576 in size, or a half size is below 0",
    4: "a radius is not finite, below 0 or above 1048576",
    5: "a rotation is not a cosine and a sine",
    6: "a translation or a centre is not finite or above 1048576 in size",
    7: "a fraction is not in 0 to 1, or a look starts behind the max fraction",
    8: "the slop is not above 0, above 1048576, or not a number",
    9: "fewer than 512 bytes are left",
    10: "the check is wrong",
    11: "the job is 0, a count is outside 1 to 16, or a byte that must be zero is not",
    12: "the cache is of another pair",
    13: "the form is neither 0 nor 2",
    14: "the line is no job, or none of a route",
    15: "the lent list has no room for all corners",
    16: "the route has fewer than 2 or more than 33 waypoints",
    17: "the route has no still outline or more than 32",
    _WRONG_LENGTH: "a list has not the length that is asked for",
}


def refusal_text(number: int) -> str:
    """The text of a refusal, as foldflake_refusal has it in C.

    >>> refusal_text(10)
    'the check is wrong'
    >>> refusal_text(99)
    'no refusal has this number'
    """
    return _TEXTS.get(number, "no refusal has this number")


class Refusal(Exception):
    """A call was refused: number and text. docs/BATCH.md lists them.

    >>> str(Refusal(8))
    'refused by 8: the slop is not above 0, above 1048576, or not a number'
    >>> Refusal(8).number, Refusal(8) == Refusal(8), Refusal(8) == Refusal(7)
    (8, True, False)
    """

    def __init__(self, number: int) -> None:
        super().__init__(number)
        self.number = number

    @property
    def text(self) -> str:
        """The text alone."""
        return refusal_text(self.number)

    def __str__(self) -> str:
        return f"refused by {self.number}: {self.text}"

    def __eq__(self, other: object) -> bool:
        return type(other) is type(self) and other.__dict__ == self.__dict__

    def __hash__(self) -> int:
        return hash(self.number)


class RouteRefusal(Refusal):
    """A route was refused: as a whole, by 16 or 17, or by what one leg past one outline is refused by. Then leg and outline are told, both from 1.

    >>> str(RouteRefusal(3, 1, 2))[:38]
    'leg 1, outline 2: refused by 3: a poin'
    >>> str(RouteRefusal(17))
    'refused by 17: the route has no still outline or more than 32'
    """

    def __init__(self, number: int, leg: Optional[int] = None, outline: Optional[int] = None) -> None:
        super().__init__(number)
        self.leg = leg
        self.outline = outline

    def __str__(self) -> str:
        return super().__str__() if self.leg is None else f"leg {self.leg}, outline {self.outline}: {super().__str__()}"


class NoLibrary(OSError):
    """libfoldflake.so is not there, or not for this machine."""


# The library. What each entry point takes and gives: small letters are numbers, capitals lists, which go as the first element's place and the length.

_KINDS: Dict[str, Any] = {"f": ctypes.c_float, "d": ctypes.c_double, "u": ctypes.c_uint32, "q": ctypes.c_uint64, "z": ctypes.c_size_t}
_LISTS: Dict[str, Any] = {"F": ctypes.c_float, "D": ctypes.c_double, "I": ctypes.c_uint32, "B": ctypes.c_uint8}
_ENTRIES = {
    "root": ("f", "f"),
    "root64": ("d", "d"),
    "line": ("qBB", "z"),
    "sweep": ("FFFFI", "u"),
    "sweep64": ("DDDDI", "u"),
    "distance": ("FFFuuIF", "u"),
    "distance64": ("DDDuuID", "u"),
    "plate": ("ffF", "u"),
    "bar": ("ffffF", "u"),
    "placed_plate": ("ffFF", "u"),
    "placed_bar": ("ffffFF", "u"),
    "pose": ("FfF", "u"),
    "gap": ("FFFFfF", "u"),
    "route": ("FFFIfFI", "u"),
    "clearance": ("FFFfFI", "u"),
    "route_clearance": ("FFFIfFI", "u"),
}

_loaded: Optional[ctypes.CDLL] = None


def _places() -> List[str]:
    """Where libfoldflake.so may be, in the order in which it is looked for."""
    named = os.environ.get("FOLDFLAKE_LIB")
    if named:
        return [os.path.join(named, "libfoldflake.so") if os.path.isdir(named) else named]
    here = os.path.dirname(os.path.abspath(__file__))
    beside = [os.path.join(here, *way, "libfoldflake.so") for way in ((os.pardir,), (os.pardir, "target", "staticlib"))]
    return [place for place in beside if os.path.isfile(place)] + ["libfoldflake.so"]


def load(place: Optional[str] = None) -> ctypes.CDLL:
    """Loads the library, from a file or a folder where one is named, and hands it over. Calls do that by themselves; only the first time it does anything.

    >>> load().foldflake_root(4.0)
    2.0
    """
    global _loaded
    if _loaded is None:
        faults = []
        named = [os.path.join(place, "libfoldflake.so") if os.path.isdir(place) else place] if place else _places()
        for name in named:
            try:
                library = ctypes.CDLL(name)
            except OSError as fault:
                faults.append(str(fault))
                continue
            for entry, (takes, gives) in _ENTRIES.items():
                function = getattr(library, f"foldflake_{entry}")
                function.restype = _KINDS[gives]
                function.argtypes = [kind for letter in takes for kind in _types(letter)]
            _loaded = library
            return library
        raise NoLibrary("; ".join(faults) + ": FOLDFLAKE_LIB may name the folder that has libfoldflake.so, which is for x86-64 Linux")
    return _loaded


def _types(letter: str) -> List[Any]:
    return [ctypes.POINTER(_LISTS[letter]), ctypes.c_size_t] if letter in _LISTS else [_KINDS[letter]]


def _call(entry: str, *arguments: Any) -> Any:
    """Calls an entry point: arrays become their first element's place and their length."""
    handed: List[Any] = []
    for argument in arguments:
        handed += [argument, len(argument)] if isinstance(argument, ctypes.Array) else [argument]
    return getattr(load(), f"foldflake_{entry}")(*handed)


def _array(kind: Type[Any], numbers: Sequence[Any]) -> Any:
    return (kind * len(numbers))(*numbers)


def _empty(kind: Type[Any], length: int) -> Any:
    return (kind * length)()


def _float(x: Any) -> float:
    """A number as a float. A whole number beyond f64 is as infinite as it would be rounded to f32."""
    try:
        return float(x)
    except OverflowError:
        return math.inf if x > 0 else -math.inf


def _pair(pair: Sequence[Any]) -> Pair:
    x, y = pair
    return _float(x), _float(y)


def _flat(outline: Outline) -> List[float]:
    """The numbers of an outline. Of one that is refused for its length one number more than is allowed is handed on."""
    numbers: List[float] = []
    for part in outline:
        if isinstance(part, Sized):
            numbers += _pair(part)
        else:
            numbers.append(_float(part))
        if len(numbers) > 128:
            return numbers[:129]
    return numbers


def _points(numbers: Sequence[float]) -> List[Pair]:
    return list(zip(numbers[0::2], numbers[1::2]))


def _u32(x: int, what: str) -> int:
    if not 0 <= x < 1 << 32:
        raise ValueError(f"{what} is not in 0 to 4294967295: {x}")
    return x


# Bodies and their moves.


def rotation(degrees: float) -> Pair:
    """The cosine and the sine of an angle, counterclockwise; exact at multiples of 90 degrees.

    >>> rotation(90)
    (0.0, 1.0)
    >>> rotation(-450)
    (0.0, -1.0)
    """
    quarters = {0.0: (1.0, 0.0), 90.0: (0.0, 1.0), 180.0: (-1.0, 0.0), 270.0: (0.0, -1.0)}
    rest = degrees % 360.0
    return quarters.get(rest) or (math.cos(math.radians(rest)), math.sin(math.radians(rest)))


@dataclass(frozen=True)
class Move:
    """A planned move of one body. Its turning centre goes straight from first to last, while the body turns from one rotation to the other.

    At fraction t the rotation is (1 - t) * first_rotation + t * last_rotation, brought to length 1. So a turn goes the short way round; its angle grows
    unevenly, and of a half turn nobody can say which way it goes: never ask for one.

    >>> Move(first=(5, 0), last=(5, 0), last_rotation=rotation(90), local_center=(1, 1)).last_rotation
    (0.0, 1.0)
    """

    first: Pair
    """Where the turning centre stands in the hall at fraction 0."""
    last: Pair
    """Where it stands at fraction 1."""
    first_rotation: Pair = (1.0, 0.0)
    """Cosine and sine at fraction 0."""
    last_rotation: Pair = (1.0, 0.0)
    """Cosine and sine at fraction 1."""
    local_center: Pair = (0.0, 0.0)
    """The turning centre, in the frame in which the outline's points are given."""

    def _numbers(self) -> List[float]:
        pairs = (self.local_center, self.first, self.last, self.first_rotation, self.last_rotation)
        return [x for pair in pairs for x in _pair(pair)]


def still(x: float, y: float, turned: Pair = (1.0, 0.0)) -> Move:
    """The move of a body that stands.

    >>> still(6, 0) == Move(first=(6, 0), last=(6, 0))
    True
    """
    return Move((x, y), (x, y), turned, turned)


@dataclass(frozen=True)
class Body:
    """An outline, its move, and a radius about it."""

    points: Outline
    move: Move
    radius: float = 0.0


def _numbers(a: Body, b: Body, max_fraction: float, slop: float) -> List[float]:
    """The 24 numbers that a sweep takes beside the outlines, which are words 2 to 25 of a block."""
    return [_float(a.radius), _float(b.radius), _float(max_fraction), _float(slop)] + a.move._numbers() + b.move._numbers()


# The sweep.


class Status(enum.Enum):
    """How a sweep ends."""

    OVERLAPPED = "O"
    """The outlines touch or overlap where the search stood, which may be later than at fraction 0."""
    HIT = "H"
    """They come within the target distance, the larger of the slop and (radius A + radius B) - slop, at the fraction."""
    SEPARATED = "S"
    """Along one axis they are apart where the search stood in the end and at the planned end. A body that turns may swing in and out in between: this
    clears no move. clearance looks at every moment."""
    FAILED = "F"
    """No verdict: the search gave up. The fraction is where it stood, and they may overlap before it."""


class Corners(NamedTuple):
    """Of one outline, the corners that lie deepest along the axis of the last search: the lowest index and the highest whose value equals its, from 0."""

    first: int
    second: int


@dataclass(frozen=True)
class Sweep:
    """What a sweep tells. Point and normal are zeros where there is nothing to tell; corners None for an outline whose edge gave the axis, and for both where
    no search ran."""

    status: Status
    fraction: float
    point: Pair
    normal: Pair
    distance_calls: int
    searches: int
    root_steps: int
    corners_a: Optional[Corners]
    corners_b: Optional[Corners]


_STATUSES = {16: Status.OVERLAPPED, 17: Status.HIT, 18: Status.SEPARATED, 19: Status.FAILED}
_NO_CORNER = 0xFFFFFFFF


def _sweep(entry: str, kind: Type[Any], a: Body, b: Body, slop: float, max_fraction: float) -> Sweep:
    out, counts = _empty(kind, 5), _empty(ctypes.c_uint32, 7)
    outlines = _array(kind, _flat(a.points)), _array(kind, _flat(b.points))
    answer = _call(entry, *outlines, _array(kind, _numbers(a, b, max_fraction, slop)), out, counts)
    if answer not in _STATUSES:
        raise Refusal(answer)
    corners = [None if counts[i] == _NO_CORNER else Corners(counts[i], counts[i + 1]) for i in (3, 5)]
    return Sweep(_STATUSES[answer], out[0], (out[1], out[2]), (out[3], out[4]), counts[0], counts[1], counts[2], *corners)


def sweep(a: Body, b: Body, slop: float, max_fraction: float = 1.0) -> Sweep:
    """When, along their moves up to max_fraction, two bodies come within the target distance: see Status for what each answer is worth.

    A cart goes straight at a table, and its front edge meets the table's corners 0 and 3.

    >>> cart = Body([-6, -4, 6, -4, 6, 4, -6, 4], Move(first=(-40, 0), last=(0, 0)))
    >>> table = Body([-10, -5, 10, -5, 10, 5, -10, 5], still(0, 0))
    >>> found = sweep(cart, table, slop=0.005)
    >>> found.status, found.corners_a, found.corners_b
    (<Status.HIT: 'H'>, None, Corners(first=0, second=3))
    >>> sweep(cart, table, slop=0.0)
    Traceback (most recent call last):
        ..
    foldflake.Refusal: refused by 8: the slop is not above 0, above 1048576, or not a number
    """
    return _sweep("sweep", ctypes.c_float, a, b, slop, max_fraction)


def sweep64(a: Body, b: Body, slop: float, max_fraction: float = 1.0) -> Sweep:
    """The sweep in f64, for coordinates that are large beside the slop.

    Two points in a hall of a kilometre, in millimetres; 0.005 is left between them.

    >>> found = sweep64(Body([(0, 0)], Move((0, 0), (1e6, 0))), Body([(0, 0)], still(1e6, 0)), slop=0.005)
    >>> found.status, abs(1e6 - 1e6 * found.fraction - 0.005) < 0.00125
    (<Status.HIT: 'H'>, True)
    """
    return _sweep("sweep64", ctypes.c_double, a, b, slop, max_fraction)


# The whole move.


class Verdict(enum.Enum):
    """What is proved of a whole move or route. Only CLEAR clears it."""

    CLEAR = "CLEAR"
    """At every fraction the outlines are further apart than the distance to keep: the larger of the slop and the sum of the radii."""
    TOUCH = "TOUCH"
    """So up to clear_up_to, and at within_by they are not: the first contact comes not before the one, and by the other."""
    OPEN = "OPEN"
    """So up to clear_up_to; what comes later was not settled."""


_VERDICTS = {32: Verdict.CLEAR, 33: Verdict.TOUCH, 34: Verdict.OPEN}


@dataclass(frozen=True)
class Clearance:
    """What holds at every fraction of two planned moves: proved, in exact arithmetic."""

    verdict: Verdict
    clear_up_to: float
    """Clear up to here, where this is after the start; the max fraction where the verdict is CLEAR. A multiple of 2^-24."""
    within_by: Optional[float]
    """Of TOUCH alone: here they are not further apart than the distance to keep. A multiple of 2^-24."""
    pieces: int
    """How many pieces of the way were tried, at most 4096."""


def clearance(a: Body, b: Body, slop: float, max_fraction: float = 1.0, start: float = 0.0) -> Clearance:
    """What holds at every fraction from start to max_fraction, of bodies that turn too.

    A square of half size 5 turns a quarter beside a wall; its corners reach 7.07.

    >>> square = Body(plate(5, 5), Move((0, 0), (0, 0), last_rotation=rotation(90)))
    >>> wall = [(0, -20), (4, -20), (4, 20), (0, 20)]
    >>> clearance(square, Body(wall, still(7.1, 0)), slop=0.005).verdict
    <Verdict.CLEAR: 'CLEAR'>
    >>> found = clearance(square, Body(wall, still(6, 0)), slop=0.005)
    >>> found.verdict, 0.18 < found.clear_up_to < found.within_by < 0.19
    (<Verdict.TOUCH: 'TOUCH'>, True)
    >>> sweep(square, Body(wall, still(6, 0)), slop=0.005).status
    <Status.SEPARATED: 'S'>
    """
    kind = ctypes.c_float
    out, pieces = _empty(kind, 2), _empty(ctypes.c_uint32, 1)
    outlines = _array(kind, _flat(a.points)), _array(kind, _flat(b.points))
    answer = _call("clearance", *outlines, _array(kind, _numbers(a, b, max_fraction, slop)), _float(start), out, pieces)
    if answer not in _VERDICTS:
        raise Refusal(answer)
    verdict = _VERDICTS[answer]
    return Clearance(verdict, out[0], out[1] if verdict is Verdict.TOUCH else None, pieces[0])


# The distance.


@dataclass
class Cache:
    """The corner pairs from which the next distance call starts, under the number of the two outlines' pair; Cache() for a first call. A call that settles or
    runs out of rounds writes it; one that touches and one that is refused leave it."""

    pair: int = 0
    count: int = 0
    index_a: Tuple[int, int, int] = (0, 0, 0)
    index_b: Tuple[int, int, int] = (0, 0, 0)


class Ending(enum.Enum):
    """How a distance call ends."""

    TOUCHING = 16
    """The outlines share a point, or the search direction became too short to go on: distance 0."""
    SETTLED = 17
    """No corner lies nearer than those in the cache."""
    ROUND_LIMIT = 18
    """20 rounds did not settle it: with three pairs in the cache the distance told is 0, be the outlines apart or not."""


@dataclass(frozen=True)
class Distance:
    """What a distance call measures, in the frame of A. The normal points from A to B, and is zeros where they touch."""

    distance: float
    point_a: Pair
    point_b: Pair
    normal: Pair
    rounds: int
    ending: Ending


def _distance(
    entry: str, kind: Type[Any], points_a: Outline, points_b: Outline, turned: Pair, translation: Pair, radii: Pair, use_radii: bool, pair: int,
    cache: Optional[Cache],
) -> Distance:
    kept = Cache() if cache is None else cache
    words = [kept.pair, kept.count, *kept.index_a, *kept.index_b]
    held = _array(ctypes.c_uint32, [_u32(word, "a number of the cache") for word in words])
    out = _empty(kind, 7)
    outlines = _array(kind, _flat(points_a)), _array(kind, _flat(points_b))
    numbers = _array(kind, [*_pair(turned), *_pair(translation), *_pair(radii)])
    answer = _call(entry, *outlines, numbers, 1 if use_radii else 0, _u32(pair, "the pair's number"), held, out)
    rounds, ending = divmod(answer, 256)
    if ending not in (16, 17, 18):
        raise Refusal(ending)
    kept.pair, kept.count = held[0], held[1]
    kept.index_a, kept.index_b = (held[2], held[3], held[4]), (held[5], held[6], held[7])
    return Distance(out[6], (out[0], out[1]), (out[2], out[3]), (out[4], out[5]), rounds, Ending(ending))


def distance(
    points_a: Outline, points_b: Outline, turned: Pair = (1.0, 0.0), translation: Pair = (0.0, 0.0), radii: Pair = (0.0, 0.0), use_radii: bool = False,
    pair: int = 0, cache: Optional[Cache] = None,
) -> Distance:
    """The distance of two outlines, B turned and then moved by the translation in the frame of A. The radii count where use_radii says so, and are checked in
    any case. Where the same two outlines are measured again and again, keep a Cache for them and give the pair a number of your own.

    >>> square = [(-1, -1), (1, -1), (1, 1), (-1, 1)]
    >>> kept = Cache()
    >>> distance(square, square, translation=(4, 0), pair=41, cache=kept).distance
    2.0
    >>> kept.pair, kept.count > 0
    (41, True)
    >>> distance(square, square, translation=(4, 0), pair=42, cache=kept)
    Traceback (most recent call last):
        ..
    foldflake.Refusal: refused by 12: the cache is of another pair
    """
    return _distance("distance", ctypes.c_float, points_a, points_b, turned, translation, radii, use_radii, pair, cache)


def distance64(
    points_a: Outline, points_b: Outline, turned: Pair = (1.0, 0.0), translation: Pair = (0.0, 0.0), radii: Pair = (0.0, 0.0), use_radii: bool = False,
    pair: int = 0, cache: Optional[Cache] = None,
) -> Distance:
    """The distance in f64. A cache has no floats, and serves both.

    >>> abs(distance64([(999998.999, 0)], plate(1, 1), translation=(1e6, 0)).distance - 0.001) < 1e-9
    True
    """
    return _distance("distance64", ctypes.c_double, points_a, points_b, turned, translation, radii, use_radii, pair, cache)


# One moment of planned moves, and the root.


class Pose(NamedTuple):
    """Where a body stands: its points are turned by the rotation and then moved by the translation."""

    rotation: Pair
    translation: Pair


def pose(move: Move, fraction: float) -> Pose:
    """Where a body stands at a fraction of its move, as a sweep works it.

    >>> pose(Move((0, 0), (8, 4)), 0.25)
    Pose(rotation=(1.0, 0.0), translation=(2.0, 1.0))
    """
    out = _empty(ctypes.c_float, 4)
    answer = _call("pose", _array(ctypes.c_float, move._numbers()), _float(fraction), out)
    if answer != 32:
        raise Refusal(answer)
    return Pose((out[0], out[1]), (out[2], out[3]))


def gap(a: Body, b: Body, fraction: float) -> float:
    """How far apart two outlines are at a fraction of their moves, without radii; 0 where they touch, and where a side is tiny or the rounds run out, although
    they may be apart.

    >>> cart, table = Body(plate(1, 1), Move((0, 0), (8, 0))), Body(plate(1, 1), still(6, 0))
    >>> gap(cart, table, 0.25), gap(cart, table, 0.75)
    (2.0, 0.0)
    """
    kind = ctypes.c_float
    sides = [_array(kind, numbers) for body in (a, b) for numbers in (_flat(body.points), body.move._numbers())]
    out = _empty(kind, 1)
    answer = _call("gap", *sides, _float(fraction), out)
    if answer != 32:
        raise Refusal(answer)
    told: float = out[0]
    return told


def root(x: float) -> float:
    """The square root of the number rounded to f32, rounded to f32.

    >>> root(2) == ctypes.c_float(2 ** 0.5).value
    True
    """
    told: float = _call("root", _float(x))
    return told


def root64(x: float) -> float:
    """The square root, rounded to nearest.

    >>> root64(2) == 2 ** 0.5
    True
    >>> root64(-1) != root64(-1)
    True
    """
    told: float = _call("root64", _float(x))
    return told


# Outlines without typing corners.


def _built(entry: str, corners: int, *arguments: Any) -> List[Pair]:
    out = _empty(ctypes.c_float, 2 * corners)
    answer = _call(entry, *arguments, out)
    if answer != 32:
        raise Refusal(answer)
    return _points(list(out))


def plate(half_x: float, half_y: float) -> List[Pair]:
    """A rectangle about (0, 0) from its half sizes.

    >>> plate(6, 4)
    [(6.0, 4.0), (-6.0, 4.0), (6.0, -4.0), (-6.0, -4.0)]
    """
    return _built("plate", 4, _float(half_x), _float(half_y))


def bar(a: Pair, b: Pair) -> List[Pair]:
    """A bar from its two ends.

    >>> bar((0, 0), (9, 0))
    [(0.0, 0.0), (9.0, 0.0)]
    """
    return _built("bar", 2, *_pair(a), *_pair(b))


def placed_plate(half_x: float, half_y: float, turned: Pair, translation: Pair) -> List[Pair]:
    """A plate whose corners are each turned and then moved.

    >>> placed_plate(6, 4, rotation(90), (10, 0))
    [(6.0, 6.0), (6.0, -6.0), (14.0, 6.0), (14.0, -6.0)]
    """
    return _built("placed_plate", 4, _float(half_x), _float(half_y), _array(ctypes.c_float, [*_pair(turned), *_pair(translation)]))


def placed_bar(a: Pair, b: Pair, turned: Pair, translation: Pair) -> List[Pair]:
    """A bar whose ends are each turned and then moved.

    >>> placed_bar((0, 0), (9, 1), rotation(90), (5, 5))
    [(5.0, 5.0), (4.0, 14.0)]
    """
    return _built("placed_bar", 2, *_pair(a), *_pair(b), _array(ctypes.c_float, [*_pair(turned), *_pair(translation)]))


# Routes.


class Waypoint(NamedTuple):
    """Where a cart is on its route."""

    center: Pair
    rotation: Pair = (1.0, 0.0)


class RouteStatus(enum.Enum):
    """What a route comes to by its sweeps. CLEAR is worth what SEPARATED is worth of each leg, and FAILED is no verdict."""

    CLEAR = "CLEAR"
    OVERLAPPED = "O"
    HIT = "H"
    FAILED = "F"


_ROUTE_STATUSES = {32: RouteStatus.CLEAR, 33: RouteStatus.OVERLAPPED, 34: RouteStatus.HIT, 35: RouteStatus.FAILED}


@dataclass(frozen=True)
class Route:
    """A route by its sweeps: the leg and the outline of the one that ends it, from 1, and its contact; None of these where it is CLEAR."""

    status: RouteStatus
    leg: Optional[int]
    outline: Optional[int]
    fraction: Optional[float]
    point: Optional[Pair]
    normal: Optional[Pair]
    distance_calls: int


@dataclass(frozen=True)
class RouteClearance:
    """What holds at every moment of a route: all pairs of leg and outline before the one told are clear; of that one as Verdict says. Leg and outline count
    from 1 and are None where all is CLEAR; fractions are of the leg."""

    verdict: Verdict
    leg: Optional[int]
    outline: Optional[int]
    clear_up_to: Optional[float]
    within_by: Optional[float]
    pieces: int


def _route_lists(cart: Outline, waypoints: Sequence[Waypoint], stills: Sequence[Outline]) -> Tuple[Any, Any, Any, Any]:
    """The four lists of a route. Of what is refused for its length one more than is allowed is handed on."""
    ways = [x for center, turned in waypoints[:34] for x in (*_pair(center), *_pair(turned))]
    outlines = [_flat(outline) for outline in stills[:33]]
    points = [x for outline in outlines for x in outline]
    kind = ctypes.c_float
    return _array(kind, _flat(cart)), _array(kind, ways), _array(kind, points), _array(ctypes.c_uint32, [len(outline) for outline in outlines])


def _refused_route(number: int, where: Any) -> RouteRefusal:
    return RouteRefusal(number, where[0], where[1]) if where[0] else RouteRefusal(number)


def route(cart: Outline, waypoints: Sequence[Waypoint], stills: Sequence[Outline], slop: float) -> Route:
    """A cart's route past still outlines, by sweeps leg by leg and past the outlines in order on each leg, up to the first that is not separated.

    >>> there = [Waypoint((0, 0)), Waypoint((9, 0))]
    >>> route(bar((-1, 0), (1, 0)), there, [[(5, 3)]], slop=0.01).status
    <RouteStatus.CLEAR: 'CLEAR'>
    >>> found = route(bar((-1, 0), (1, 0)), there, [[(5, 3)], [(6, 0)]], slop=0.01)
    >>> found.status, found.leg, found.outline
    (<RouteStatus.HIT: 'H'>, 1, 2)
    >>> route(bar((-1, 0), (1, 0)), there, [], slop=0.01)
    Traceback (most recent call last):
        ..
    foldflake.RouteRefusal: refused by 17: the route has no still outline or more than 32
    """
    out, where = _empty(ctypes.c_float, 5), _empty(ctypes.c_uint32, 3)
    answer = _call("route", *_route_lists(cart, waypoints, stills), _float(slop), out, where)
    if answer not in _ROUTE_STATUSES:
        raise _refused_route(answer, where)
    status = _ROUTE_STATUSES[answer]
    if status is RouteStatus.CLEAR:
        return Route(status, None, None, None, None, None, where[2])
    return Route(status, where[0], where[1], out[0], (out[1], out[2]), (out[3], out[4]), where[2])


def route_clearance(cart: Outline, waypoints: Sequence[Waypoint], stills: Sequence[Outline], slop: float) -> RouteClearance:
    """The same route looked at as a whole: what is told of a leg holds at every moment of it, of a cart that turns too.

    A cart of 2 by 1 turns a quarter beside a post that its corner meets on the way.

    >>> cart, turns = plate(1, 0.5), [Waypoint((0, 0)), Waypoint((0, 0), rotation(90))]
    >>> post = placed_plate(0.4, 0.4, rotation(0), (0, 1.5))
    >>> route(cart, turns, [post], slop=0.005).status
    <RouteStatus.CLEAR: 'CLEAR'>
    >>> found = route_clearance(cart, turns, [post], slop=0.005)
    >>> found.verdict, found.leg, found.outline, 0.55 < found.clear_up_to < found.within_by < 0.57
    (<Verdict.TOUCH: 'TOUCH'>, 1, 1, True)
    """
    out, where = _empty(ctypes.c_float, 2), _empty(ctypes.c_uint32, 3)
    answer = _call("route_clearance", *_route_lists(cart, waypoints, stills), _float(slop), out, where)
    if answer not in _VERDICTS:
        raise _refused_route(answer, where)
    verdict = _VERDICTS[answer]
    if verdict is Verdict.CLEAR:
        return RouteClearance(verdict, None, None, None, None, where[2])
    return RouteClearance(verdict, where[0], where[1], out[0], out[1] if verdict is Verdict.TOUCH else None, where[2])


# Blocks and batches: docs/BATCH.md. None of this needs the library, but for the lines.


def _bits(x: float) -> int:
    """The bits of a number rounded to f32; of one that is not a number its own, so that a block that was read is written as it was."""
    if math.isnan(x):
        (wide,) = struct.unpack("<Q", struct.pack("<d", x))
        return int(wide >> 32 & 0x80000000 | 0x7F800000 | (wide >> 29 & 0x7FFFFF or 0x400000))
    (bits,) = struct.unpack("<I", struct.pack("<f", ctypes.c_float(x).value))
    return int(bits)


def _of_bits(bits: int) -> float:
    """The number of these bits, exactly."""
    if bits & 0x7F800000 == 0x7F800000 and bits & 0x7FFFFF:
        (x,) = struct.unpack("<d", struct.pack("<Q", (bits & 0x80000000) << 32 | 0x7FF << 52 | (bits & 0x7FFFFF) << 29))
    else:
        (x,) = struct.unpack("<f", struct.pack("<I", bits))
    return float(x)


def _check(words: Sequence[int], form: int) -> int:
    """The check word over the 127 words before it."""
    total = sum(words) if form == 1 else sum(place * word for place, word in enumerate(words, 1))
    return ~total & 0xFFFFFFFF


@dataclass(frozen=True)
class Job:
    """A job: what a block of 512 bytes says, in either form.

    >>> job = Job(7, Body([(0, 0)], still(0, 0)), Body([(0, 0)], Move((4, 0), (0, 0))), slop=0.5)
    >>> job.block()[508:][::-1].hex().upper()
    '42FFFEF7'
    >>> Job.read(job.block()) == job
    True
    """

    number: int
    a: Body
    b: Body
    slop: float
    max_fraction: float = 1.0
    form: int = 1

    def block(self, form: Optional[int] = None) -> bytes:
        """The block of 512 bytes, in the form named, else in the job's own. Refused by 13 for a form that is neither 1 nor 2, by 11 for a job number that is
        not from 1 to 4294967295 or outlines that have not 1 to 16 points. What a sheet would refuse by 3 to 8 gets its block; a number beyond f32 becomes
        infinite, which is among that.

        >>> job = Job(7, Body([(0, 0)], still(0, 0)), Body([(0, 0)], still(4, 0)), slop=0.5)
        >>> Job.read(job.block(form=2)).form
        2
        >>> Job(0, job.a, job.b, slop=0.5).block()
        Traceback (most recent call last):
            ..
        foldflake.Refusal: refused by 11: the job is 0, a count is outside 1 to 16, or a byte that must be zero is not
        """
        form = self.form if form is None else form
        outlines = _flat(self.a.points), _flat(self.b.points)
        if form not in (1, 2):
            raise Refusal(13)
        if not 0 < self.number < 1 << 32 or any(len(numbers) % 2 or not 2 <= len(numbers) <= 32 for numbers in outlines):
            raise Refusal(11)
        counts = len(outlines[0]) // 2 | len(outlines[1]) // 2 << 8 | (0 if form == 1 else 2) << 16
        words = [self.number, counts, *map(_bits, _numbers(self.a, self.b, self.max_fraction, self.slop))]
        for numbers in outlines:
            words += [*map(_bits, numbers), *[0] * (32 - len(numbers))]
        words += [0] * (127 - len(words))
        return struct.pack("<128I", *words, _check(words, form))

    @classmethod
    def read(cls, block: bytes) -> Job:
        """The job of a block, bit by bit: Job.read(block).block() is the block. Refused by 9 for fewer than 512 bytes, 13 for the form, 10 for the check, 11 for
        job number, counts and zeros; more than 512 bytes are a ValueError.

        >>> Job.read(bytes(512))
        Traceback (most recent call last):
            ..
        foldflake.Refusal: refused by 10: the check is wrong
        """
        if len(block) > BLOCK_BYTES:
            raise ValueError(f"a block has 512 bytes, not {len(block)}")
        if len(block) < BLOCK_BYTES:
            raise Refusal(9)
        words = struct.unpack("<128I", block)
        form = {0: 1, 2: 2}.get(block[6])
        if form is None:
            raise Refusal(13)
        if _check(words[:127], form) != words[127]:
            raise Refusal(10)
        counts = block[4], block[5]
        unused = [block[7], *words[90:127]]
        for first, count in zip((26, 58), counts):
            # -0 is no zero here: a byte of it is not
            unused += words[first + 2 * count : first + 32]
        if words[0] == 0 or not all(1 <= count <= 16 for count in counts) or any(unused):
            raise Refusal(11)
        numbers = [_of_bits(word) for word in words[2:90]]
        moves = []
        for first in (4, 14):
            center, start, end, first_turned, last_turned = _points(numbers[first : first + 10])
            moves.append(Move(start, end, first_turned, last_turned, center))
        a = Body(_points(numbers[24 : 24 + 2 * counts[0]]), moves[0], numbers[0])
        b = Body(_points(numbers[56 : 56 + 2 * counts[1]]), moves[1], numbers[1])
        return cls(words[0], a, b, numbers[3], numbers[2], form)

    def sweep(self) -> Sweep:
        """The sweep of the job, as the sheet has it."""
        return sweep(self.a, self.b, self.slop, self.max_fraction)

    def clearance(self) -> Clearance:
        """What holds at every moment of the job's move."""
        return clearance(self.a, self.b, self.slop, self.max_fraction)


def _blocks(stream: BinaryIO) -> Iterator[bytes]:
    """The blocks of a batch, the last as short as it is."""
    while True:
        block = b""
        while len(block) < BLOCK_BYTES:
            more = stream.read(BLOCK_BYTES - len(block))
            if not more:
                break
            block += more
        if block:
            yield block
        if len(block) < BLOCK_BYTES:
            return


def read_batch(stream: BinaryIO) -> Iterator[Union[Job, Refusal]]:
    """The jobs of a batch, block by block; for a block that is refused by 9, 10, 11 or 13 that refusal, not raised. 9 is the last.

    >>> import io
    >>> job = Job(7, Body([(0, 0)], still(0, 0)), Body([(0, 0)], still(4, 0)), slop=0.5)
    >>> list(read_batch(io.BytesIO(job.block() + bytes(512) + b"rest"))) == [job, Refusal(10), Refusal(9)]
    True
    """
    for block in _blocks(stream):
        found: Union[Job, Refusal]
        try:
            found = Job.read(block)
        except Refusal as refusal:
            found = refusal.with_traceback(None)
        yield found


def write_batch(stream: BinaryIO, jobs: Iterable[Job], form: Optional[int] = None) -> int:
    """Writes the jobs' blocks, and tells how many there were. A job that is refused is raised, and no block after those before it is written.

    >>> import io
    >>> batch = io.BytesIO()
    >>> job = Job(7, Body([(0, 0)], still(0, 0)), Body([(0, 0)], still(4, 0)), slop=0.5)
    >>> write_batch(batch, [job, job], form=2), len(batch.getvalue())
    (2, 1024)
    """
    count = 0
    for job in jobs:
        stream.write(job.block(form))
        count += 1
    return count


def line(number: int, block: bytes) -> str:
    """The line of a block of 512 bytes as block `number` of a batch, newline included, as `sheet` prints it. A block that is refused has a line too.

    >>> line(1, Job(7, Body([(0, 0)], still(0, 0)), Body([(0, 0)], Move((4, 0), (0, 0))), slop=0.5).block())
    '1 7 0 H 3F600000 3E800000 00000000 3F800000 00000000 2 2 2 0 0 0 0\\n'
    >>> line(3, bytes(512))
    '3 0 10\\n'
    """
    if not 0 < number <= 1 << 63:
        raise ValueError(f"a block's number is from 1 to 2^63, not {number}")
    if len(block) != BLOCK_BYTES:
        raise ValueError(f"a block has 512 bytes, not {len(block)}")
    out = _empty(ctypes.c_uint8, 240)
    length: int = _call("line", number, (ctypes.c_uint8 * BLOCK_BYTES).from_buffer_copy(block), out)
    return bytes(out[:length]).decode("ascii")


def sheet(stream: BinaryIO) -> Iterator[str]:
    """The sheet of a batch, line by line, TOTAL last: what `sheet` prints.

    >>> import io
    >>> block = Job(7, Body([(0, 0)], still(0, 0)), Body([(0, 0)], Move((4, 0), (0, 0))), slop=0.5).block()
    >>> print(*sheet(io.BytesIO(block + b"rest")), sep="", end="")
    1 7 0 H 3F600000 3E800000 00000000 3F800000 00000000 2 2 2 0 0 0 0
    2 0 9
    TOTAL 2 0 1 0 1
    """
    blocks, counted = 0, {"S": 0, "contact": 0, "F": 0, "refused": 0}
    for blocks, block in enumerate(_blocks(stream), 1):
        text = line(blocks, block) if len(block) == BLOCK_BYTES else f"{blocks} 0 9\n"
        words = text.split()
        status = words[3] if words[2] == "0" else "refused"
        counted[status if status in counted else "contact"] += 1
        yield text
    yield f"TOTAL {blocks} {counted['S']} {counted['contact']} {counted['F']} {counted['refused']}\n"
