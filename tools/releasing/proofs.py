"""PROOFS.txt: what was proved of a release, of which sources, by what, and how to do it again."""

import subprocess
from dataclasses import dataclass
from textwrap import wrap

from building.kit import TARGET
from releasing.contents import Built, stripped
from releasing.gates import WHOLE, Log, functions, gate_of, whole_gate
from releasing.sources import Source, crate_sum
from releasing.sums import sum_of, sum_of_bytes
from sources.crates import all_needs, read_crates

WIDTH = 80
KEPT = "kept"
# What is believed beside the kit's libraries. README.md and SECURITY.md say more.
TRUSTED = (
    "the Rattle toolchain (prover, compilers, linker) and its std", "gcc, binutils, the C library, the system",
    "callers in C, and the bindings for Python and Rust", "the tools in Python, which are tested",
)  # fmt: skip
NOT_PROVED = """UNPROVED. No proof of these sources was checked for this release: it was compiled
without. What README.md says is proved holds of a release without this line.
"""


@dataclass(frozen=True)
class Proved:
    """The logs of the runs that built the release, that of the whole gate where it is kept, and numbers of functions."""

    logs: dict[str, Log]
    whole: Log | None
    functions: dict[str, int]


def read_proved(built: Built) -> Proved | None:
    """What the logs say; None of what was compiled without proofs. A log that is missing or has failed is refused."""
    if not built.is_proved:
        return None
    logs = {place.target.name: gate_of(place) for place in built.places}
    own = next(log.own for log in logs.values() if log.own is not None)
    return Proved(logs, whole_gate(built.root), {**functions(built.root), built.archive.target.crate: own})


def proofs_text(built: Built, source: Source, proved: Proved | None) -> str:
    """The text, a part after another."""
    parts = [
        f"Kuspveli {built.name}, for {TARGET}: what was proved of it\n",
        "" if proved else NOT_PROVED,
        made_of(built, source),
        runs(built, proved) if proved else "",
        files(built),
        trusted(built),
        again(built, source),
        crates(built, proved),
    ]
    return "\n".join(part for part in parts if part)


def made_of(built: Built, source: Source) -> str:
    kits = sorted({stamp.kit for place in built.places if (stamp := place.stamp())})
    lines = [f"commit   {source.commit}", *(f"kit      {kit}" for kit in kits)]
    lines += [f"sources  {stamp.sources}  {place.target.name}" for place in built.places if (stamp := place.stamp())]
    if source.changed:
        lines.append(f"changed  {len(source.changed)} files differ from the commit")
    return "\n".join([*lines, ""])


def runs(built: Built, proved: Proved) -> str:
    lines = ["The runs of rt ci, each with its last two lines:"]
    found = {f"what {name} is built on": log for name, log in proved.logs.items()}
    if proved.whole is not None:
        found["the whole repository"] = proved.whole
    for what, log in found.items():
        lines += [f"  {len(log.crates)} crates, {what}"]
        lines += [f"    {line}" for line in (*wrap(log.done, WIDTH - 4), log.last)]
    return "\n".join([*lines, ""])


def files(built: Built) -> str:
    """Sums of what was built, and of what it is released as."""
    lines = ["Files as they were built, and as they are released:"]
    for place in built.places:
        lines += [f"  {sum_of(path)}  {path.name}" for path in place.files]
    for name, place in built.programs.items():
        lines.append(f"  {sum_of_bytes(stripped(place.file))}  {name}, without symbols ({said_by('strip')})")
    lines.append(f"  {sum_of_bytes(built.library.text)}  {built.library.file}, of the archive ({said_by('gcc')})")
    return "\n".join([*lines, ""])


def said_by(command: str) -> str:
    """The first line that a command says of its version."""
    return subprocess.run([command, "--version"], capture_output=True, text=True, check=True).stdout.splitlines()[0]


def trusted(built: Built) -> str:
    named = read_crates(built.root)
    used = {crate for place in built.places for crate in all_needs(place.target.crate, named)}
    kits = sorted({needed for crate in used for needed in named[crate] if needed not in named})
    text = f"Trusted: {'; '.join(TRUSTED)}; of the kit's libraries {', '.join(kits)}, and those that they are built on."
    return "\n".join([*wrap(text, WIDTH), ""])


def again(built: Built, source: Source) -> str:
    kit = built.archive.stamp()
    word = "" if built.is_proved else " --unproved"
    tools = dict.fromkeys(f"{place.target.tool}{word}" for place in built.places)
    return "\n".join([
        "To do it again, in a clone, with the kit whose line rt version prints:",
        f"  git checkout {source.commit}",
        f"  rt version                # {kit.kit if kit else ''}",
        *([f"  mkdir -p out; rt ci | tee out/{WHOLE}  # all crates, edits, tests, programs"] if built.is_proved else []),
        *(f"  {tool}" for tool in tools),
        f"  tools/release{word} ../again && cd ../again && sha256sum -c SHA256SUMS",
        "",
    ])  # fmt: skip


def crates(built: Built, proved: Proved | None) -> str:
    """Each crate with its number of functions and the sum of its files."""
    heads = {place.target.name: set(place.lines()) for place in built.places}
    used = set().union(*heads.values())
    lines = [
        "Each crate that is released, with the number of its functions as the prover counts them",
        f"({KEPT}: an earlier run had proved the same files), and the sum of its files:",
        "  git ls-files -z crates/NAME | LC_ALL=C sort -z | xargs -0 sha256sum | sha256sum",
    ]
    order = [crate for crate in read_crates(built.root) if crate in used]
    rows = [(crate, number_of(crate, proved), crate_sum(built.root, crate)) for crate in order]
    lines += [f"  {made}  {number:>8}  {crate}" for crate, number, made in rows]
    if proved:
        known = [int(number) for _, number, _ in rows if number.isdigit()]
        lines.append(f"{sum(known)} functions of {len(known)} crates of {len(rows)}.")
    return "\n".join([*lines, ""])


def number_of(crate: str, proved: Proved | None) -> str:
    if proved is None:
        return "unproved"
    return str(proved.functions.get(crate, KEPT))
