"""How much the streams of a WOFF or WOFF2 file unpack to, before fontTools unpacks them whole."""

import zlib
from pathlib import Path
from typing import BinaryIO

from common.faults import FILES, ToolFault
from fontjson.limits import MOST_BYTES, refuse

WOFF, WOFF2 = b"wOFF", b"wOF2"
# The lengths of both headers, and where the number of tables and the metadata's place and lengths stand in them.
WOFF_HEADER, WOFF2_HEADER = 44, 48
TABLE_COUNT = 12
# So few bytes of brotli begin at most two blocks, and a block has at most 2^24 bytes.
BITE = 16


def is_packed(path: str) -> bool:
    """Whether a file begins as one of WOFF or WOFF2."""
    with open(path, "rb") as file:
        return file.read(4) in (WOFF, WOFF2)


def check_packed(path: str) -> None:
    """Refuses a file that unpacks to more than the limit, or to another size than it says."""
    if Path(path).stat().st_size > MOST_BYTES:
        raise refuse(f"more than {MOST_BYTES:,} bytes")
    with open(path, "rb") as file:
        kind = file.read(4)
        if kind == WOFF:
            check_woff(file)
        elif kind == WOFF2:
            check_woff2(file)


def check_woff(file: BinaryIO) -> None:
    """WOFF: each table and the metadata by zlib, but where packing saves nothing."""
    header = read(file, 0, WOFF_HEADER)
    streams = [numbers(header, 24, 3)]
    for entry in range(int.from_bytes(header[TABLE_COUNT : TABLE_COUNT + 2], "big")):
        streams.append(numbers(read(file, WOFF_HEADER + 20 * entry + 4, 12), 0, 3))
    within(sum(whole for _, _, whole in streams))
    for offset, packed, whole in streams:
        if packed != whole:
            unpacked = zlib.decompressobj().decompress(read(file, offset, packed), whole + 1)
            if len(unpacked) != whole:
                raise refuse(f"a stream of {whole:,} bytes unpacks to another size")


def check_woff2(file: BinaryIO) -> None:
    """WOFF2: all tables in one stream by brotli, and the metadata in another."""
    from fontTools.ttLib.woff2 import WOFF2DirectoryEntry

    header = read(file, 0, WOFF2_HEADER)
    whole = 0
    file.seek(WOFF2_HEADER)
    for _ in range(int.from_bytes(header[TABLE_COUNT : TABLE_COUNT + 2], "big")):
        entry = WOFF2DirectoryEntry()
        entry.fromFile(file)
        whole += entry.length
        within(whole + entry.origLength)
    [packed] = numbers(header, 20, 1)
    unbrotli(read(file, file.tell(), packed), whole)
    offset, packed, whole = numbers(header, 28, 3)
    if packed:
        unbrotli(read(file, offset, packed), within(whole))


def unbrotli(packed: bytes, whole: int) -> None:
    """Unpacks a stream by small bites, and stops where it has more than it should."""
    try:
        import brotli
    except ImportError as missing:
        raise ToolFault(FILES, "brotli is missing for WOFF2: apt-get install python3-brotli") from missing

    stream, found = brotli.Decompressor(), 0
    for start in range(0, len(packed), BITE):
        found += len(stream.process(packed[start : start + BITE]))
        if found > whole:
            break
    if found != whole:
        raise refuse(f"a stream of {whole:,} bytes unpacks to another size")


def within(size: int) -> int:
    if size > MOST_BYTES:
        raise refuse(f"unpacks to more than {MOST_BYTES:,} bytes")
    return size


def read(file: BinaryIO, offset: int, length: int) -> bytes:
    file.seek(offset)
    return file.read(length)


def numbers(data: bytes, at: int, count: int) -> list[int]:
    """Numbers of four bytes."""
    return [int.from_bytes(data[at + 4 * n : at + 4 * n + 4], "big") for n in range(count)]
