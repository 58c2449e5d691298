"""Lines of a list that name what no list may name, or that are none."""

import hashlib
from pathlib import Path
from random import Random

NAMES = (
    "assets/id", "src/main.rt", "crates/own/src/main.rt", "../outside/id", "/etc/hostname", "crates/../../outside/id", "one",
    "crates", "crates/low", "crates/low/src/lib.rt", "crates/left/src/lib.rt", "bin/own", "lib", "lib/kuspveli/tools/tool",
    "crates/low//src/lib.rt", "crates/./low/src/lib.rt", "include/kuspveli.h", "crates/low/out/made", "crates/kuspveli/\r",
)  # fmt: skip
OTHERS = (
    b"", b"x", b"\xff\xfe", b"# above 9999", b"# above 3", b"# folder ..", b"# folder lib", b"# folder crates/own/src",
    b"# folder /", b"# link bin/tool -> ../../outside/id", b"# link ../outside/id -> none", b"# unfinished ../outside/id",
    b"# unfinished .kuspveli-0123456789abcdef0123456789abcdef", b"# else", b"\0" * 70, b"0" * 64,
)  # fmt: skip


def nasty_lines(draw: Random, to: Path) -> bytes:
    """Some lines, some with the right sums of what they name."""
    return b"".join(line_of(draw, to) + draw.choice((b"\n", b"\n", b"\n", b"\r\n", b"")) for _ in range(draw.randrange(1, 4)))


def line_of(draw: Random, to: Path) -> bytes:
    if draw.random() < 0.4:
        return draw.choice(OTHERS)
    name = draw.choice(NAMES)
    path = to / name
    content = path.read_bytes() if path.is_file() else b""
    return f"{hashlib.sha256(content).hexdigest()}  {name}".encode()
