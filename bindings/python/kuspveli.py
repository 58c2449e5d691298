"""Shapes texts by libkuspveli, by ctypes alone. kuspveli_library says where the shared library is sought."""

import ctypes
import enum
import os
import re
import sys
import threading
import weakref
from array import array
from itertools import accumulate
from typing import Any, Callable, Iterable, Mapping, NamedTuple, Optional, TypeVar, Union, overload

import kuspveli_library

__version__ = kuspveli_library.version()
NAMES = {
    1: "OutOfMemory", 2: "J1 NotJson", 3: "J2 WrongShape", 4: "J3 FloatNumber", 5: "J4 UnknownName",
    6: "U1 OutOfOrder", 7: "U2 OutOfRange", 8: "U3 SplitDepth", 9: "Unlawful", 10: "NotUtf8", 12: "S2 TooLong",
    13: "S3 StretchRange", 14: "S4 UnknownSyllableKind", 16: "NoFont", 17: "NoTables", 18: "NoSlices",
    19: "OtherFormat", 20: "F1 Short", 21: "F2 Kind", 22: "F3 Order", 23: "F4 Index", 24: "F5 Missing",
    25: "F6 TooLarge", 26: "SharedFont", 27: "NoGlyph", 28: "AdvanceRange", 29: "NoCharacter",
    30: "TooManyGlyphs", 31: "ClustersOutOfOrder", 32: "InvalidBreaks", 33: "InvalidStops",
}
DIRECTIONS = {"": 0, "ltr": 4, "rtl": 5, "ttb": 6, "btt": 7}
GLOBAL_END = 0xFFFF_FFFF
# The greatest index.
SIZE_MOST = 0xFFFF_FFFF_FFFF_FFFF
# No glyph (KUS_CODEPOINT_INVALID).
NO_GLYPH = 0xFFFF_FFFF
# What of a font file is not read (KUS_FONT_WITHOUT_EXTENTS, KUS_FONT_WITHOUT_NAMES).
WITHOUT_EXTENTS, WITHOUT_NAMES = 1, 2
# How a text is passed, by what its clusters are: the name of the encoding in the machine's order, and its flag
# (KUS_FLAG_UTF16, KUS_FLAG_UTF32).
ORDER = "le" if sys.byteorder == "little" else "be"
ENCODINGS = {"bytes": ("utf-8", 0), "utf16": (f"utf-16-{ORDER}", 0x10000), "characters": (f"utf-32-{ORDER}", 0x20000)}
# How many bytes a unit of each has.
UNIT_SIZES = {"bytes": 1, "utf16": 2, "characters": 4}
NO_SLICES = 18
# How many glyphs a font has arrays for from text to text; a longer text has its own.
KEPT = 512
# How many glyphs are copied at once.
PART = 4096
# The faults of font files, and how long the text of one is at most.
FILE_FAULTS, MOST_OF_A_TEXT = range(20, 26), 64
# What a tag is made of: printed ASCII characters (OpenType).
TAG = re.compile(r"[\x20-\x7e]{1,4}")
# A feature as text: -liga, +kern, kern=1, ccmp[0:3]=0, aalt[2]=3.
FEATURE = re.compile(r"(?P<sign>[+-]?)(?P<tag>[^\s\[\]=+,-]+)(?P<range>\[(\d*)(:?)(\d*)\])?(?:=(?P<value>\d+))?")
Bytes = Union[bytes, bytearray, memoryview]
Text = Union[str, Bytes]
# Tables or a font: another handle is of the same class.
AnyHeld = TypeVar("AnyHeld", bound="Held")


# ---- the library


class Handle(ctypes.Structure):
    _fields_ = [("at", ctypes.c_void_p), ("live", ctypes.c_bool)]


class RawFeature(ctypes.Structure):
    _fields_ = [(name, ctypes.c_uint32) for name in ("tag", "value", "start", "end")]


class RawText(ctypes.Structure):
    _fields_ = [
        *(
            field
            for name in ("text", "before", "after", "language")
            for field in ((name, ctypes.c_char_p), (f"{name}_length", ctypes.c_size_t))
        ),
        ("features", ctypes.POINTER(RawFeature)),
        ("num_features", ctypes.c_size_t),
        *((name, ctypes.c_uint32) for name in ("direction", "script", "flags", "cluster_level")),
    ]


class RawInfo(ctypes.Structure):
    _fields_ = [(name, ctypes.c_uint32) for name in ("codepoint", "mask", "cluster", "var1", "var2")]


class RawPosition(ctypes.Structure):
    _fields_ = [
        *((name, ctypes.c_int32) for name in ("x_advance", "y_advance", "x_offset", "y_offset")),
        ("var", ctypes.c_uint32),
    ]


class RawSlice(ctypes.Structure):
    _fields_ = [(name, ctypes.c_size_t) for name in ("first_glyph", "end_glyph", "start", "end")]


class RawAdvance(ctypes.Structure):
    _fields_ = [(name, ctypes.c_uint32) for name in ("glyph", "advance")]


class RawCharacterGlyph(ctypes.Structure):
    _fields_ = [(name, ctypes.c_uint32) for name in ("character", "selector", "glyph")]


class RawLineMetrics(ctypes.Structure):
    _fields_ = [(name, ctypes.c_int32) for name in ("ascender", "descender", "line_gap")]


class RawExtents(ctypes.Structure):
    _fields_ = [(name, ctypes.c_int32) for name in ("x_bearing", "y_bearing", "width", "height")]


class RawLine(ctypes.Structure):
    _fields_ = [
        ("start", ctypes.c_size_t),
        ("end", ctypes.c_size_t),
        ("width", ctypes.c_int64),
        ("first_glyph", ctypes.c_size_t),
        ("end_glyph", ctypes.c_size_t),
        ("is_own", ctypes.c_bool),
    ]


class RawCaret(ctypes.Structure):
    _fields_ = [("index", ctypes.c_size_t), ("position", ctypes.c_int64)]


def load(path: Union[str, "os.PathLike[str]"]) -> ctypes.CDLL:
    """The library, with its calls declared."""
    found = ctypes.CDLL(os.fspath(path))
    handle, size, u32 = ctypes.POINTER(Handle), ctypes.c_size_t, ctypes.c_uint32
    numbers, bytes_ = ctypes.POINTER(u32), ctypes.c_char_p
    rooms = [ctypes.POINTER(RawInfo), size, ctypes.POINTER(RawPosition), size]
    declare(found, "kus_version", u32)
    declare(found, "kus_tables_create", u32, handle, bytes_, size)
    declare(found, "kus_tables_create_default", u32, handle)
    declare(found, "kus_tables_reference", u32, handle, handle)
    declare(found, "kus_tables_destroy", None, handle)
    declare(found, "kus_font_create", u32, handle, bytes_, size, bytes_, size)
    declare(found, "kus_font_create_with_tables", u32, handle, handle, bytes_, size)
    declare(found, "kus_count_fonts", size, bytes_, size)
    declare(found, "kus_font_create_from_bytes_over", u32, handle, handle, bytes_, size, size, u32)
    declare(found, "kus_font_create_from_bytes_alone", u32, handle, bytes_, size, size, u32)
    declare(found, "kus_describe_fault", size, bytes_, size, size, u32, bytes_, size)
    declare(found, "kus_font_reference", u32, handle, handle)
    declare(found, "kus_font_destroy", None, handle)
    declare(found, "kus_shape", u32, handle, ctypes.POINTER(RawText), *rooms, ctypes.POINTER(size))
    declare(found, "kus_get_glyphs", size, handle, *rooms)
    declare(found, "kus_font_set_advances", u32, handle, ctypes.POINTER(RawAdvance), size)
    declare(found, "kus_font_set_glyphs", u32, handle, ctypes.POINTER(RawCharacterGlyph), size)
    declare(found, "kus_font_set_invisible_glyph", u32, handle, u32)
    declare(found, "kus_font_set_not_found_glyph", u32, handle, u32)
    declare(found, "kus_font_set_scale", u32, handle, ctypes.c_int32, ctypes.c_int32)
    declare(found, "kus_font_shrink", None, handle)
    declare(found, "kus_get_direction", u32, handle)
    declare(found, "kus_get_script", u32, handle)
    declare(found, "kus_get_slices", u32, handle, bytes_, size, ctypes.POINTER(RawSlice), size, ctypes.POINTER(size))
    declare(found, "kus_font_get_upem", u32, handle)
    declare(found, "kus_font_get_ascender", ctypes.c_int32, handle)
    declare(found, "kus_font_get_line_metrics", ctypes.c_bool, handle, ctypes.POINTER(RawLineMetrics))
    declare(found, "kus_font_get_nominal_glyph", ctypes.c_bool, handle, u32, numbers)
    declare(found, "kus_font_get_glyph_name", size, handle, u32, ctypes.c_char_p, size)
    declare(found, "kus_font_get_glyph_extents", ctypes.c_bool, handle, u32, ctypes.POINTER(RawExtents))
    declare(found, "kus_font_get_glyph_h_advance", ctypes.c_int32, handle, u32)
    declare(found, "kus_font_get_glyph_v_advance", ctypes.c_int32, handle, u32)
    declare(found, "kus_font_get_feature_tags", size, handle, u32, numbers, size)
    declare(found, "kus_font_get_script_tags", size, handle, u32, numbers, size)
    declare(found, "kus_font_get_ligature_carets", size, handle, u32, ctypes.POINTER(ctypes.c_int32), size)
    sizes, i64 = ctypes.POINTER(size), ctypes.c_int64
    cut = [handle, size, sizes, size, i64, i64, ctypes.POINTER(RawLine), size, sizes]
    declare(found, "kus_cut_lines", u32, *cut)
    declare(found, "kus_font_get_break_premises", u32, handle)
    declare(found, "kus_check_lines", u32, handle, u32, ctypes.POINTER(RawText), ctypes.POINTER(RawLine), size)
    declare(found, "kus_get_carets", u32, handle, size, sizes, size, ctypes.POINTER(RawCaret), size, sizes)
    return found


def declare(library: ctypes.CDLL, name: str, result: Any, *arguments: Any) -> None:
    call = getattr(library, name, None)
    if call is None:
        raise ImportError(f"the library has no {name}, so it is of another version: {kuspveli_library.BUILT_BY}")
    call.restype, call.argtypes = result, list(arguments)


LIBRARY = load(kuspveli_library.find())


def version() -> tuple[int, int, int]:
    """The version of the library that was loaded."""
    number = LIBRARY.kus_version()
    return number >> 16, number >> 8 & 0xFF, number & 0xFF


def check_version(found: tuple[int, int, int]) -> None:
    """Refuses a library of other calls: while the first number stays, calls are only added."""
    own = tuple(map(int, __version__.partition("+")[0].split(".")))
    if found[0] != own[0] or found[1] < own[1]:
        told = f"the library is of version {'.'.join(map(str, found))}, and kuspveli.py of {__version__}"
        raise ImportError(f"{LIBRARY._name}: {told}: {kuspveli_library.BUILT_BY}")


check_version(version())


# ---- the stack

# Bytes of the stack that a call which reads tables or a font needs, and any other (include/kuspveli.h), and what Python
# itself takes of a thread's before.
READING, SHAPING, PYTHON = 384 << 10, 128 << 10, 64 << 10


class Thread(threading.local):
    """What is known of a thread: the size of its stack in bytes, None where the system doesn't say."""

    def __init__(self) -> None:
        self.stack = stack_of_thread()


def stack_of_thread() -> Optional[int]:
    """The size of this thread's stack, by the C library (pthread_getattr_np)."""
    calls = ctypes.CDLL(None)
    if not hasattr(calls, "pthread_getattr_np"):
        return None
    # More than a pthread_attr_t has.
    attributes, start, size = ctypes.create_string_buffer(256), ctypes.c_void_p(), ctypes.c_size_t()
    calls.pthread_self.restype, calls.pthread_getattr_np.argtypes = ctypes.c_void_p, [ctypes.c_void_p, ctypes.c_char_p]
    if calls.pthread_getattr_np(calls.pthread_self(), attributes):
        return None
    failed = calls.pthread_attr_getstack(attributes, ctypes.byref(start), ctypes.byref(size))
    calls.pthread_attr_destroy(attributes)
    return None if failed else size.value


THREAD = Thread()


def need_stack(needed: int) -> None:
    """Refuses a thread whose stack is too small: a call would end the process there."""
    if THREAD.stack is not None and THREAD.stack < needed + PYTHON:
        has = f"the stack of this thread has {THREAD.stack >> 10} KiB, and the call needs {(needed + PYTHON) >> 10}"
        raise RuntimeError(f"{has}: threading.stack_size({READING + PYTHON}) or more, before the thread is made")


# ---- forks


class Handles:
    """The handles of this process. A fork waits for the calls of other threads, so that a child has none that is worked
    on, and no lock that nobody opens."""

    def __init__(self) -> None:
        self.lock = threading.RLock()
        self.all: "weakref.WeakSet[Held]" = weakref.WeakSet()
        self.held: list[Any] = []
        os.register_at_fork(before=self.stop, after_in_parent=self.go_on, after_in_child=self.go_on)

    def add(self, handle: "Held") -> None:
        with self.lock:
            self.all.add(handle)

    def stop(self) -> None:
        self.lock.acquire()
        # A font's call may wait for its tables, and not the other way round.
        for handle in sorted(self.all, key=lambda each: isinstance(each, Tables)):
            handle._lock.acquire()
            self.held.append(handle)

    def go_on(self) -> None:
        while self.held:
            self.held.pop()._lock.release()
        self.lock.release()


HANDLES = Handles()


class Fault(Exception):
    """Why the library refused a call, and of a font file where."""

    def __init__(self, status: int, text: str = "") -> None:
        super().__init__(text or NAMES.get(status, f"status {status}"))
        self.status = status

    def __reduce__(self) -> Any:
        return Fault, (self.status, str(self))


def check(status: int) -> None:
    if status:
        raise Fault(status)


def check_file(status: int, *given: Any) -> None:
    """With the table and the offset that are at fault, where a file has such ones."""
    if status in FILE_FAULTS:
        text = ctypes.create_string_buffer(MOST_OF_A_TEXT)
        length = LIBRARY.kus_describe_fault(*given, text, MOST_OF_A_TEXT)
        raise Fault(status, text.raw[:length].decode())
    check(status)


# ---- what is passed and what is answered


class Flags(enum.IntFlag):
    """The requests for a text (hb_buffer_flags_t)."""

    DEFAULT = 0
    BOT = 1
    EOT = 2
    PRESERVE_DEFAULT_IGNORABLES = 4
    REMOVE_DEFAULT_IGNORABLES = 8
    DO_NOT_INSERT_DOTTED_CIRCLE = 16
    PRODUCE_UNSAFE_TO_CONCAT = 64
    PRODUCE_SAFE_TO_INSERT_TATWEEL = 128
    PRODUCE_SAFE_BREAKS = 256


ALL_FLAGS = 0x1DF


class ClusterLevel(enum.IntEnum):
    """Which characters share a cluster, and whether clusters may merge (hb_buffer_cluster_level_t)."""

    MONOTONE_GRAPHEMES = 0
    MONOTONE_CHARACTERS = 1
    CHARACTERS = 2
    GRAPHEMES = 3


class Feature(NamedTuple):
    """A request for a feature, for the clusters from `start` on, without `end`."""

    tag: str
    value: int = 1
    start: int = 0
    end: int = GLOBAL_END


class Glyph(NamedTuple):
    """A glyph with its position in font units, or in the scale that is set; `cluster` is the index of a byte of the text in
    UTF-8 (or of what `clusters` names), and `character` that of the same character in the text as a str."""

    number: int
    cluster: int
    flags: int
    x_advance: int
    y_advance: int
    x_offset: int
    y_offset: int
    character: int


class Arrays(NamedTuple):
    """The glyphs of a text as arrays, with an item for each glyph."""

    numbers: "array[int]"
    clusters: "array[int]"
    flags: "array[int]"
    x_advances: "array[int]"
    y_advances: "array[int]"
    x_offsets: "array[int]"
    y_offsets: "array[int]"
    characters: "array[int]"


class Slice(NamedTuple):
    """A run of glyphs of one cluster, and the part of the text that it comes from: bytes, and characters, each without
    its end."""

    glyphs: list[Glyph]
    start: int
    end: int
    first_character: int
    end_character: int


class LineMetrics(NamedTuple):
    """What is above and below the baseline, where the descender is mostly negative, and what is left between two lines,
    in font units."""

    ascender: int
    descender: int
    line_gap: int


class Line(NamedTuple):
    """A line of the last text: from one index of what its clusters count in to another one, without it; its width in font
    units; and which of the text's glyphs it has, None where it has to be shaped again."""

    start: int
    end: int
    width: int
    glyphs: Optional[range]


class Caret(NamedTuple):
    """A caret: the index before which it stands, of what clusters count in, and its position from the left end of the
    glyphs, or from the upper one on a vertical line, in font units."""

    index: int  # type: ignore[assignment]
    position: int


class Extents(NamedTuple):
    """The box of a glyph's ink in font units; the height is negative where y grows upward."""

    x_bearing: int
    y_bearing: int
    width: int
    height: int


Features = Union[str, Mapping[str, int], Iterable[Union[Feature, str]]]


def tag(text: str, what: str = "tag") -> int:
    """The number of a tag of up to four letters; 0 for none."""
    if not isinstance(text, str):
        raise TypeError(f"{what}: {text!r} is no str")
    if not text:
        return 0
    if not TAG.fullmatch(text):
        raise ValueError(f"{what}: {text!r} is no tag of one to four printed ASCII characters")
    return int.from_bytes(text.encode("ascii").ljust(4), "big")


def tag_text(number: int) -> str:
    """The letters of a tag's number; none for 0."""
    return number.to_bytes(4, "big").decode("latin-1").rstrip(" ") if number else ""


def features_of(given: Features) -> list[Feature]:
    """Features of text, as "liga=0,kern,-calt,ccmp[0:3]=0", of a dict of values, or of features and such texts."""
    if isinstance(given, str):
        return [feature_of(part.strip()) for part in given.split(",") if part.strip()]
    if isinstance(given, Mapping):
        return [checked(Feature(name, number(value, f"feature {name!r}"))) for name, value in given.items()]
    return [feature_of(one) if isinstance(one, str) else checked(Feature(*one)) for one in given]


def feature_of(text: str) -> Feature:
    """The feature of a text, by the rules of hb_feature_from_string for numbers and ranges."""
    found = FEATURE.fullmatch(text)
    if not found or (found["sign"] == "-" and found["value"]):
        raise ValueError(f"feature: {text!r} is not of the form liga, -liga, liga=0 or liga[0:3]=0")
    value = int(found["value"]) if found["value"] else int(found["sign"] != "-")
    start, end = 0, GLOBAL_END
    if found["range"]:
        first, colon, last = found[4], found[5], found[6]
        start = int(first or 0)
        end = int(last) if last else GLOBAL_END if colon or not first else start + 1
    return checked(Feature(found["tag"], value, start, end))


def checked(feature: Feature) -> Feature:
    if not tag(feature.tag, "feature"):
        raise ValueError("feature: a tag is empty")
    for name, value in zip(feature._fields[1:], feature[1:]):
        number(value, f"feature {feature.tag!r}: {name}")
    return feature


def number(value: int, what: str, most: int = 0xFFFF_FFFF) -> int:
    """A number from 0 to `most`."""
    if not isinstance(value, int):
        raise TypeError(f"{what}: {value!r} is no number")
    plain = int.__index__(value)
    if not 0 <= plain <= most:
        raise ValueError(f"{what}: {plain} is not from 0 to {most}")
    return plain


def signed(value: int, what: str, bits: int = 32) -> int:
    """A number of some bits with a sign."""
    if not isinstance(value, int):
        raise TypeError(f"{what}: {value!r} is no number")
    plain = int.__index__(value)
    most = (1 << bits - 1) - 1
    if not -most - 1 <= plain <= most:
        raise ValueError(f"{what}: {plain} is not from {-most - 1} to {most}")
    return plain


def utf8(text: Text, what: str) -> bytes:
    """The bytes of a text: a str is encoded, and other bytes are taken as they are."""
    if type(text) is bytes:
        return text
    if isinstance(text, str):
        try:
            return str.encode(text)
        except UnicodeEncodeError as error:
            raise ValueError(f"{what}: the surrogate at {error.start} is no character") from None
    if isinstance(text, (bytes, bytearray, memoryview)):
        return own_bytes(text)
    raise TypeError(f"{what}: {type(text).__name__} is no str, bytes, bytearray or memoryview")


def encoded(text: Text, what: str, clusters: str) -> bytes:
    """The bytes of a text whose clusters are its bytes in UTF-8, its units in UTF-16 or its characters."""
    if clusters not in ENCODINGS:
        raise ValueError(f"clusters: {clusters!r} is none of bytes, utf16, characters")
    if clusters == "bytes":
        return utf8(text, what)
    if not isinstance(text, str):
        raise TypeError(f"{what}: {type(text).__name__} is no str, whose clusters are {clusters}")
    try:
        return str.encode(text, ENCODINGS[clusters][0])
    except UnicodeEncodeError as error:
        raise ValueError(f"{what}: the surrogate at {error.start} is no character") from None


def own_bytes(given: Bytes) -> bytes:
    """By the buffer, whose length no class can tell otherwise."""
    return given if type(given) is bytes else memoryview(given).tobytes()


def file_bytes(given: Bytes) -> bytes:
    """The bytes of a font file."""
    if isinstance(given, (bytes, bytearray, memoryview)):
        return own_bytes(given)
    raise TypeError(f"font: {type(given).__name__} is no bytes, bytearray or memoryview (Font.open takes a path)")


def direction_number(direction: str) -> int:
    try:
        return DIRECTIONS[direction]
    except (KeyError, TypeError):
        raise ValueError(f"direction: {direction!r} is none of ltr, rtl, ttb, btt") from None


def flags_number(flags: int) -> int:
    if number(flags, "flags") & ~ALL_FLAGS:
        raise ValueError(f"flags: {int.__index__(flags):#x} has a bit that no flag has")
    return number(flags, "flags")


def character_indices(text: bytes, clusters: str = "bytes") -> Optional["array[int]"]:
    """For each byte (or unit of UTF-16) of a text the index of the character that it is a part of; none where each is a
    character."""
    if clusters == "characters" or (clusters == "bytes" and text.isascii()):
        return None
    if clusters == "bytes":
        return array("I", accumulate((byte & 0xC0 != 0x80 for byte in text[1:]), initial=0))
    units = memoryview(text).cast("H")
    return array("I", accumulate((unit & 0xFC00 != 0xDC00 for unit in units[1:]), initial=0)) if len(units) else None


# ---- tables and fonts


class Held:
    """A handle of the library, which one thread at a time uses; a copy is another handle of the same data."""

    # Calls of the library.
    _destroy: Any
    _reference: Any

    def __init__(self) -> None:
        # Where it is called again, the handle stays, and a call that reads into it frees what it had.
        if not hasattr(self, "_lock"):
            self._handle = Handle()
            self._lock = threading.RLock()
            HANDLES.add(self)

    def another(self: AnyHeld) -> AnyHeld:
        """The same for another thread, which shares what was read."""
        need_stack(SHAPING)
        other = type(self).__new__(type(self))
        Held.__init__(other)
        with self._lock:
            check(self._reference(self._handle, other._handle))
        return other

    def close(self) -> None:
        """Frees it; later calls are refused."""
        with self._lock:
            self._destroy(self._handle)

    def __enter__(self: AnyHeld) -> AnyHeld:
        return self

    def __exit__(self, *_: object) -> None:
        self.close()

    def __copy__(self: AnyHeld) -> AnyHeld:
        return self.another()

    def __deepcopy__(self: AnyHeld, _: object) -> AnyHeld:
        return self.another()

    def __reduce_ex__(self, _: object) -> Any:
        raise TypeError(f"{type(self).__name__} is a handle of this process, and can't be pickled")

    def __del__(self) -> None:
        if hasattr(self, "_lock"):
            self.close()


class Tables(Held):
    """Tables of characters, syllables and languages, which fonts share: those of JSON, else those of Unicode 15.0 that
    are inside the library."""

    _destroy = staticmethod(LIBRARY.kus_tables_destroy)
    _reference = staticmethod(LIBRARY.kus_tables_reference)

    def __init__(self, json: Optional[Text] = None) -> None:
        super().__init__()
        need_stack(READING)
        read = None if json is None else utf8(json, "tables")
        with self._lock:
            if read is None:
                check(LIBRARY.kus_tables_create_default(self._handle))
            else:
                check(LIBRARY.kus_tables_create(self._handle, read, len(read)))


def count_fonts(file: Bytes) -> int:
    """How many fonts the bytes of a font file have; 0 where they are no font file."""
    read = file_bytes(file)
    count: int = LIBRARY.kus_count_fonts(read, len(read))
    return count


class Font(Held):
    """A font of a font file over the tables that are inside the library, or over others. Threads may share it: a call
    waits while another one works on it. `another` gives a thread its own, so that none waits."""

    _destroy = staticmethod(LIBRARY.kus_font_destroy)
    _reference = staticmethod(LIBRARY.kus_font_reference)
    _advance: Optional[Callable[[int], int]] = None
    _asked: set[int]
    # What the clusters of the last text count up to, how many glyphs it has, and the text; what `_break_premises` answered.
    _end, _count = 0, 0
    _text: Optional[RawText] = None
    _premises: Optional[int] = None
    # Arrays of KEPT glyphs, which each text is written to: glyphs, their room, positions, their room.
    _kept: Any = None

    @overload
    def __init__(
        self, file: Bytes, /, *, index: int = 0, tables: Optional[Tables] = None, extents: bool = True, names: bool = True
    ) -> None: ...

    @overload
    def __init__(self, tables: Union[Tables, Text], json: Text, /) -> None: ...

    def __init__(
        self,
        first: Any,
        json: Optional[Text] = None,
        /,
        *,
        index: int = 0,
        tables: Optional[Tables] = None,
        extents: bool = True,
        names: bool = True,
    ) -> None:
        """The font with an index of the bytes of a font file (TrueType, OpenType, a collection), over the tables, or
        over those that are inside the library; without the boxes of glyphs, or their names, where these are not asked
        for. Nothing of the bytes is kept. With a second argument the arguments are tables and a font (JSON)."""
        super().__init__()
        need_stack(READING)
        if json is None:
            self._read_file(file_bytes(first), index, tables, extents, names)
            return
        given = {"index": index != 0, "tables": tables is not None, "extents": not extents, "names": not names}
        for name in (name for name, is_given in given.items() if is_given):
            raise TypeError(f"{name}: a font of JSON has no such setting")
        self._read_json(first, utf8(json, "font"))

    @classmethod
    def open(
        cls,
        path: Union[str, "os.PathLike[str]"],
        index: int = 0,
        *,
        tables: Optional[Tables] = None,
        extents: bool = True,
        names: bool = True,
    ) -> "Font":
        """The font with an index of a font file."""
        with open(path, "rb") as file:
            read = file.read()
        try:
            return cls(read, index=index, tables=tables, extents=extents, names=names)
        except Fault as fault:
            raise Fault(fault.status, f"{path}: {fault}") from None

    def _read_file(self, read: bytes, index: int, tables: Optional[Tables], extents: bool, names: bool) -> None:
        given = (read, len(read), number(index, "index"), (not extents) * WITHOUT_EXTENTS | (not names) * WITHOUT_NAMES)
        if tables is None:
            with self._lock:
                check_file(LIBRARY.kus_font_create_from_bytes_alone(self._handle, *given), *given)
        elif isinstance(tables, Tables):
            with self._lock, tables._lock:
                check_file(LIBRARY.kus_font_create_from_bytes_over(self._handle, tables._handle, *given), *given)
        else:
            raise TypeError(f"tables: {type(tables).__name__} is no Tables")

    def _read_json(self, tables: Union[Tables, Text], read: bytes) -> None:
        if isinstance(tables, Tables):
            with self._lock, tables._lock:
                check(LIBRARY.kus_font_create_with_tables(self._handle, tables._handle, read, len(read)))
        else:
            both = utf8(tables, "tables")
            with self._lock:
                check(LIBRARY.kus_font_create(self._handle, both, len(both), read, len(read)))

    # -- texts

    # Each call has all settings by name, so that editors, types and help show them.
    def shape(
        self,
        text: Text,
        *,
        features: Features = (),
        direction: str = "",
        script: str = "",
        language: str = "",
        before: Text = "",
        after: Text = "",
        flags: int = 0,
        cluster_level: int = 0,
        clusters: str = "bytes",
    ) -> list[Glyph]:
        """The glyphs of a text, in the order in which they are drawn. What is not set is guessed.

        features: "liga=0,kern", {"liga": 0} or features, whose ranges are of clusters; direction: "ltr", "rtl", "ttb" or
        "btt"; script: a tag of ISO 15924; language: a tag of BCP 47; before, after: the text around it; flags: Flags;
        cluster_level: ClusterLevel; clusters: what a cluster is the index of, "bytes" (of UTF-8), "utf16" (units of
        UTF-16) or "characters" (of a str)."""
        arrays = self.shape_arrays(
            text,
            features=features,
            direction=direction,
            script=script,
            language=language,
            before=before,
            after=after,
            flags=flags,
            cluster_level=cluster_level,
            clusters=clusters,
        )
        return list(map(Glyph, *arrays))

    def shape_arrays(
        self,
        text: Text,
        *,
        features: Features = (),
        direction: str = "",
        script: str = "",
        language: str = "",
        before: Text = "",
        after: Text = "",
        flags: int = 0,
        cluster_level: int = 0,
        clusters: str = "bytes",
    ) -> Arrays:
        """The glyphs of a text as `shape` gives them, as arrays."""
        raw, own = raw_text(
            text, features, direction, script, language, before, after, flags, cluster_level, clusters
        )
        with self._lock:
            return self._shaped(raw, own, clusters)

    def shape_slices(
        self,
        text: Text,
        *,
        features: Features = (),
        direction: str = "",
        script: str = "",
        language: str = "",
        before: Text = "",
        after: Text = "",
        flags: int = 0,
        cluster_level: int = 0,
    ) -> list[Slice]:
        """The glyphs of a text as `shape` gives them, by runs of one cluster with its part of the text; Fault where
        they can't be traced to the text."""
        raw, own = raw_text(text, features, direction, script, language, before, after, flags, cluster_level)
        with self._lock:
            arrays = self._shaped(raw, own, "bytes")
            runs = self._runs(own, len(arrays.numbers))
        glyphs = list(map(Glyph, *arrays))
        indices = character_indices(own) or range(len(own))
        count = indices[-1] + 1 if own else 0
        ends = [*indices, count]
        return [
            Slice(glyphs[run.first_glyph : run.end_glyph], run.start, run.end, ends[run.start], ends[run.end])
            for run in runs
        ]

    def direction(self) -> str:
        """The direction by which the last text was shaped, empty where there was none."""
        with self._lock:
            found = LIBRARY.kus_get_direction(self._handle)
        return next(name for name, value in DIRECTIONS.items() if value == found)

    def script(self) -> str:
        """The script by which the last text was shaped, empty where there was none."""
        with self._lock:
            return tag_text(LIBRARY.kus_get_script(self._handle))

    def _shaped(self, raw: RawText, own: bytes, clusters: str) -> Arrays:
        need_stack(SHAPING)
        self._end, self._count, self._text = 0, 0, None
        count = ctypes.c_size_t()
        self._kept = rooms = self._kept or rooms_of(KEPT)
        check(LIBRARY.kus_shape(self._handle, raw, *rooms, count))
        if count.value > KEPT:
            rooms = rooms_of(count.value)
            LIBRARY.kus_get_glyphs(self._handle, *rooms)
        infos, _, positions, _ = rooms
        arrays = arrays_of(infos, positions, count.value, character_indices(own, clusters))
        if self._measure(arrays.numbers):
            return self._shaped(raw, own, clusters)
        self._end, self._count, self._text = len(own) // UNIT_SIZES[clusters], count.value, raw
        return arrays

    def shrink(self) -> None:
        """Gives back the memory that the glyphs of the last text don't need: a font keeps that of its longest text."""
        with self._lock:
            self._kept = None
            LIBRARY.kus_font_shrink(self._handle)

    def _measure(self, glyphs: Iterable[int]) -> bool:
        """Sets the advances of glyphs that the caller's function was not asked for yet; whether one is another than the
        font's."""
        if self._advance is None:
            return False
        new = set(glyphs) - self._asked
        given = {glyph: number(self._advance(glyph), "advance") for glyph in new}
        others = {glyph: given[glyph] for glyph in new if self.glyph_h_advance(glyph) != given[glyph]}
        if others:
            self.set_advances(others)
        self._asked |= new
        return bool(others)

    def _runs(self, own: bytes, most: int) -> list[RawSlice]:
        slices, count = (RawSlice * max(most, 1))(), ctypes.c_size_t()
        if most:
            check(LIBRARY.kus_get_slices(self._handle, own, len(own), slices, most, count))
        return slices[: count.value]

    # -- what a client sets

    def set_advances(self, advances: Mapping[int, int]) -> None:
        """Gives glyphs advances in a horizontal line, in font units, as a client measures them: from then on texts are
        shaped as in a font with these advances. Where one of them is refused, with the Fault NoGlyph for a glyph that the
        font has no advance of, AdvanceRange for one above 65535, or SharedFont where other handles share the font, nothing
        changes."""
        given = [(number(glyph, "glyph"), number(advance, "advance")) for glyph, advance in advances.items()]
        rows = (RawAdvance * max(len(given), 1))(*(RawAdvance(*row) for row in given))
        with self._lock:
            check(LIBRARY.kus_font_set_advances(self._handle, rows, len(given)))

    def set_advance_function(self, advance: Optional[Callable[[int], int]]) -> None:
        """Has a function answer the advance of a glyph, as `set_advances` takes it: it is asked once for each glyph that a
        text has, and where it answers another advance than the font's the text is shaped again. None ends that."""
        with self._lock:
            self._advance, self._asked = advance, set()

    def set_glyphs(self, glyphs: Mapping[str, Optional[int]]) -> None:
        """Gives characters glyphs, and variation sequences (a character and its selector), as a client's own character map
        has them; None where the font is to have no glyph. From then on texts are shaped as in a font with this map. Where a
        glyph is refused, with the Fault NoGlyph for one above 65535, or SharedFont where other handles share the font,
        nothing changes."""
        given = [raw_character_glyph(sequence, glyph) for sequence, glyph in glyphs.items()]
        rows = (RawCharacterGlyph * max(len(given), 1))(*given)
        with self._lock:
            self._premises = None
            check(LIBRARY.kus_font_set_glyphs(self._handle, rows, len(given)))

    def set_invisible_glyph(self, glyph: Optional[int]) -> None:
        """Sets the glyph of default ignorables in the texts that are shaped from then on; None for the font's space."""
        with self._lock:
            check(LIBRARY.kus_font_set_invisible_glyph(self._handle, number(0 if glyph is None else glyph, "glyph")))

    def set_not_found_glyph(self, glyph: int) -> None:
        """Sets the glyph of characters that the font lacks, 0 at first, in the texts that are shaped from then on."""
        with self._lock:
            check(LIBRARY.kus_font_set_not_found_glyph(self._handle, number(glyph, "glyph")))

    def set_scale(self, x_scale: int, y_scale: Optional[int] = None) -> None:
        """Sets what an em is on both axes in units of the caller, in which positions are answered from then on: an advance
        is rounded by itself, and within a cluster each glyph's point is rounded once. 0 for font units."""
        x = signed(x_scale, "x_scale")
        y = x if y_scale is None else signed(y_scale, "y_scale")
        with self._lock:
            check(LIBRARY.kus_font_set_scale(self._handle, x, y))

    # -- lines and carets of the last text

    def cut_lines(
        self, breaks: Iterable[int], width: int, first_width: Optional[int] = None, *, lawful: bool = False
    ) -> list[Line]:
        """The lines of the last text, which is shaped with Flags.PRODUCE_SAFE_BREAKS. They may end at `breaks`, which rise
        (those of UAX 14), in what its clusters count in. A line takes what fits the width, in font units, and one piece
        between breaks at least; the first one what fits `first_width`, for a text that goes on in a line of other ones. With
        `lawful` a line has its glyphs only where its ends are cuts of which the law of safe breaks speaks."""
        found = list(breaks)
        rest = signed(width, "width", bits=64)
        first = rest if first_width is None else signed(first_width, "first_width", bits=64)
        lines, count = (RawLine * (len(found) + 1))(), ctypes.c_size_t()
        given = (*sizes_of(found, "break"), first, rest)
        with self._lock:
            check(LIBRARY.kus_cut_lines(self._handle, self._end, *given, lines, len(lines), count))
            if lawful and self._text is not None:
                check(LIBRARY.kus_check_lines(self._handle, self._break_premises(), self._text, lines, count.value))
        return [
            Line(one.start, one.end, one.width, range(one.first_glyph, one.end_glyph) if one.is_own else None)
            for one in lines[: count.value]
        ]

    def _break_premises(self) -> int:
        """What has to hold for safe breaks to be promised, tested once."""
        if self._premises is None:
            self._premises = int(LIBRARY.kus_font_get_break_premises(self._handle))
        return self._premises

    def carets(self, stops: Iterable[int] = ()) -> list[Caret]:
        """The carets of the last text, in its order: between clusters and at both ends, and at those of `stops`, which rise,
        that are inside of clusters (as UAX 29 lets a caret stand), as between the letters of a ligature: where its font's
        file says (`ligature_carets`), else they divide its width evenly. Fault where the glyphs can't be traced to the text."""
        found, count = list(stops), ctypes.c_size_t()
        given = sizes_of(found, "stop")
        with self._lock:
            carets = (RawCaret * (self._count + len(found) + 1))()
            status = LIBRARY.kus_get_carets(self._handle, self._end, *given, carets, len(carets), count)
            if status == NO_SLICES and not self._end:
                # The text without characters has no glyph to stand beside.
                return [Caret(0, 0)]
            check(status)
        return [Caret(one.index, one.position) for one in carets[: count.value]]

    # -- what the font says of itself

    def upem(self) -> int:
        """The units of the em."""
        with self._lock:
            return int(LIBRARY.kus_font_get_upem(self._handle))

    def ascender(self) -> int:
        """The height of the ascender above the baseline, in font units; 0 where the font gives none."""
        with self._lock:
            return int(LIBRARY.kus_font_get_ascender(self._handle))

    def line_metrics(self) -> Optional[LineMetrics]:
        """The metrics of a line in font units, if the font was read from a file that has them."""
        found = RawLineMetrics()
        with self._lock:
            has = LIBRARY.kus_font_get_line_metrics(self._handle, found)
        return LineMetrics(found.ascender, found.descender, found.line_gap) if has else None

    def nominal_glyph(self, character: str) -> Optional[int]:
        """The glyph that the font has for a character, if it has one."""
        found = ctypes.c_uint32()
        with self._lock:
            has = LIBRARY.kus_font_get_nominal_glyph(self._handle, ord(character), found)
        return found.value if has else None

    def glyph_name(self, glyph: int) -> Optional[str]:
        """The name of a glyph, if the font gives one. What a font names a glyph may hold any character."""
        number(glyph, "glyph")
        with self._lock:
            room = LIBRARY.kus_font_get_glyph_name(self._handle, glyph, b"", 0)
            name = ctypes.create_string_buffer(room + 1)
            LIBRARY.kus_font_get_glyph_name(self._handle, glyph, name, room)
        return name.raw[:room].decode() if room else None

    def glyph_extents(self, glyph: int) -> Optional[Extents]:
        """The box of a glyph's ink, if the font gives one."""
        box = RawExtents()
        with self._lock:
            has = LIBRARY.kus_font_get_glyph_extents(self._handle, number(glyph, "glyph"), box)
        return Extents(box.x_bearing, box.y_bearing, box.width, box.height) if has else None

    def glyph_h_advance(self, glyph: int) -> int:
        """The advance of a glyph in a horizontal line, in font units."""
        with self._lock:
            return int(LIBRARY.kus_font_get_glyph_h_advance(self._handle, number(glyph, "glyph")))

    def glyph_v_advance(self, glyph: int) -> int:
        """The advance of a glyph in a vertical line, in font units, at most 0."""
        with self._lock:
            return int(LIBRARY.kus_font_get_glyph_v_advance(self._handle, number(glyph, "glyph")))

    def ligature_carets(self, glyph: int) -> list[int]:
        """The carets inside of a ligature that the font's file gives (GDEF), in font units from the glyph's origin."""
        call = LIBRARY.kus_font_get_ligature_carets
        with self._lock:
            room = call(self._handle, number(glyph, "glyph"), (ctypes.c_int32 * 1)(), 0)
            found = (ctypes.c_int32 * max(room, 1))()
            call(self._handle, number(glyph, "glyph"), found, room)
        return list(found[:room])

    def feature_tags(self, table: str) -> list[str]:
        """The tags of the features of a table, "GSUB" or "GPOS", in the order of their indices."""
        return self._tags(LIBRARY.kus_font_get_feature_tags, table)

    def script_tags(self, table: str) -> list[str]:
        """The tags of the scripts of a table, "GSUB" or "GPOS"."""
        return self._tags(LIBRARY.kus_font_get_script_tags, table)

    def _tags(self, call: Callable[..., int], table: str) -> list[str]:
        if table not in ("GSUB", "GPOS"):
            raise ValueError(f"table: {table!r} is neither GSUB nor GPOS")
        with self._lock:
            room = call(self._handle, tag(table), (ctypes.c_uint32 * 1)(), 0)
            tags = (ctypes.c_uint32 * max(room, 1))()
            call(self._handle, tag(table), tags, room)
        return list(map(tag_text, tags[:room]))


def raw_character_glyph(sequence: str, glyph: Optional[int]) -> RawCharacterGlyph:
    """The glyph of a character, or of a character and its selector."""
    if not isinstance(sequence, str):
        raise TypeError(f"characters: {sequence!r} is no str")
    if len(sequence) not in (1, 2):
        raise ValueError(f"characters: {sequence!r} is no character, nor one with a variation selector")
    selector = ord(sequence[1]) if len(sequence) == 2 else 0
    return RawCharacterGlyph(ord(sequence[0]), selector, NO_GLYPH if glyph is None else number(glyph, "glyph", NO_GLYPH - 1))


def sizes_of(indices: list[int], what: str) -> tuple[Any, int]:
    """Indices as the library takes them, and how many they are."""
    for index in indices:
        number(index, what, most=SIZE_MOST)
    return (ctypes.c_size_t * max(len(indices), 1))(*indices), len(indices)


def raw_text(
    text: Text,
    features: Features = (),
    direction: str = "",
    script: str = "",
    language: str = "",
    before: Text = "",
    after: Text = "",
    flags: int = 0,
    cluster_level: int = 0,
    clusters: str = "bytes",
) -> tuple[RawText, bytes]:
    """A text with its settings as the library takes it, and its bytes."""
    own = encoded(text, "text", clusters)
    raw = RawText(
        direction=direction_number(direction),
        script=tag(script, "script"),
        flags=flags_number(flags) | ENCODINGS[clusters][1],
        cluster_level=number(cluster_level, "cluster_level", most=3),
    )
    around = {
        "before": encoded(before, "before", clusters),
        "after": encoded(after, "after", clusters),
        "language": utf8(language, "language"),
    }
    for name, value in {"text": own, **around}.items():
        setattr(raw, name, value)
        setattr(raw, f"{name}_length", len(value))
    asked = [RawFeature(tag(f.tag), f.value, f.start, f.end) for f in features_of(features)]
    raw.features, raw.num_features = (RawFeature * max(len(asked), 1))(*asked), len(asked)
    return raw, own


def rooms_of(count: int) -> tuple[Any, int, Any, int]:
    """Arrays of the library's structs for so many glyphs and their positions, each before its length."""
    return (RawInfo * count)(), count, (RawPosition * count)(), count


def arrays_of(infos: Any, positions: Any, count: int, indices: Optional["array[int]"]) -> Arrays:
    """The glyphs of the library's structs, each of five numbers of 32 bits."""
    numbers, flags, clusters = columns("I", infos, count, 3)
    characters = clusters if indices is None else array("I", (indices[cluster] for cluster in clusters))
    x_advances, y_advances, x_offsets, y_offsets = columns("i", positions, count, 4)
    return Arrays(numbers, clusters, flags, x_advances, y_advances, x_offsets, y_offsets, characters)


def columns(kind: str, rows: Any, count: int, number: int) -> "list[array[int]]":
    """The first numbers of rows of five each, as arrays. Of a long text a part of the rows at a time is copied, which
    takes little memory beside the arrays and is still in the processor's cache."""
    taken = memoryview(rows).cast("B")[: 20 * count]
    if count <= PART:
        return [*split(kind, taken, number)]
    made = [array(kind, (0,)) * count for _ in range(number)]
    for at in range(0, count, PART):
        for column, part in zip(made, split(kind, taken[20 * at : 20 * (at + PART)], number)):
            column[at : at + PART] = part
    return made


def split(kind: str, rows: memoryview, number: int) -> "Iterable[array[int]]":
    """The first numbers of rows of five each."""
    part = array(kind)
    part.frombytes(rows)
    return (part[k::5] for k in range(number))
