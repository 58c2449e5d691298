"""The command line of hostile."""

import argparse
import contextlib
import multiprocessing
import shutil
import tempfile
from dataclasses import dataclass, replace
from pathlib import Path
from typing import Any

from attacks.attack import Attack, Files
from attacks.fonts import FONTS
from attacks.texts import TEXTS
from attacks.values import VALUES
from building.places import PROGRAM, standing
from building.ready import usable
from common.faults import FILES as NO_FILE
from common.faults import WORDS, ToolFault
from common.files import write_file
from common.parsing import Words
from fuzzing.cases import FILES
from fuzzing.cli import MEMORY
from fuzzing.running import Answer, Limits, Runner, is_line, under

NAME = "hostile"
THEIRS = "hb-shape"
ABOUT = """Runs the program on fonts, texts, tables and JSON that are made to cost much, each at a size, at twice and at
four times of it, with a small stack; tells the processor time, the memory and the answer, and names what grows like a
square. The status is 1 where an answer is not right. With --beside the time of hb-shape stands below, on the same font
as OpenType and the same text, where it can have them."""
FACTORS = (1, 2, 4)
# A straight line grows twice as much from twice to four times the size as from the size to twice; a square four times.
SQUARE = 3.0
# Times and memory below these tell nothing.
LEAST_SECONDS = 0.15
LEAST_MEMORY = 64 << 20
ATTACKS = [*FONTS, *TEXTS, *VALUES]


@dataclass(frozen=True)
class Measured:
    """The answers at the three sizes, what is wrong with one of them, and what grows like a square."""

    answers: list[Answer]
    wrong: str | None

    def squares(self) -> list[str]:
        seconds = [answer.seconds for answer in self.answers]
        memory = [float(answer.memory) for answer in self.answers]
        found = ["time"] if is_square(seconds, LEAST_SECONDS) else []
        # Less than that may be the tool's own memory.
        return found + (["memory"] if memory[0] >= LEAST_MEMORY and is_square(memory, LEAST_MEMORY) else [])


def is_square(values: list[float], least: float) -> bool:
    """Whether three values, at a size, at twice and at four times of it, grow like a square."""
    first, second = values[1] - values[0], values[2] - values[1]
    return second >= least and second >= SQUARE * max(first, least / 8)


def parser() -> argparse.ArgumentParser:
    words = Words(prog=NAME, description=ABOUT)
    words.add_argument("names", nargs="*", metavar="NAME", help="a part of the names of those to run (all)")
    words.add_argument("--list", action="store_true", help="print the names and the first sizes")
    words.add_argument("--write", type=Path, metavar="FOLDER", help="write the files, and run nothing")
    words.add_argument("--times", type=int, default=1, metavar="N", help="of N runs the fastest is told (1)")
    words.add_argument("--beside", action="store_true", help="tell the times of hb-shape too")
    words.add_argument("--program", type=Path, default=standing(PROGRAM).file, metavar="FILE", help="another program")
    words.add_argument("--limit", type=float, default=120, metavar="S", help="processor seconds for a run (120)")
    words.add_argument("--memory", type=int, default=4096, metavar="MB", help="memory for a run (4096)")
    words.add_argument("--stack", type=int, default=384, metavar="KB", help="stack for a run (384)")
    return words


def main(given: list[str]) -> int:
    """Runs what is named; its status is 1 where an answer is not right."""
    options = parser().parse_args(given)
    attacks = [each for each in ATTACKS if not options.names or any(name in each.name for name in options.names)]
    if not attacks:
        raise ToolFault(WORDS, f"no name has one of these parts: {', '.join(options.names)}")
    if options.list:
        for attack in attacks:
            print(f"{attack.size:10,}  {attack.name}")
        return 0
    if options.write is not None:
        write_all(options.write, attacks)
        return 0
    usable(NAME, options.program)
    limits = Limits(options.limit, options.memory << 20, options.stack << 10)
    with contextlib.ExitStack() as stack:
        named = tempfile.TemporaryDirectory(prefix="hostile-", dir=MEMORY if MEMORY.is_dir() else None)
        folder = Path(stack.enter_context(named))
        server = stack.enter_context(Server(Runner(options.program, folder, limits)))
        theirs = None
        if options.beside:
            (folder / THEIRS).mkdir()
            theirs = stack.enter_context(Server(Runner(their_program(), folder / THEIRS, replace(limits, stack=None))))
        return run_all(server, theirs, attacks, options.times)


def their_program() -> Path:
    found = shutil.which(THEIRS)
    if found is None:
        raise ToolFault(NO_FILE, f"{THEIRS} is missing: apt-get install libharfbuzz-bin")
    return Path(found)


def write_all(folder: Path, attacks: list[Attack]) -> None:
    """Writes the files of each at its first size, with the options."""
    for attack in attacks:
        here = folder / attack.name.replace(" ", "-").replace(",", "")
        here.mkdir(parents=True, exist_ok=True)
        files = attack.files(attack.size)
        write_files(here, files)
        write_file(here / "options", "".join(f"{word}\n" for word in files.options))


def write_files(folder: Path, files: Files) -> list[str]:
    """Writes the three files; the words of the command line for them."""
    for name, content in zip(FILES, files.contents()):
        write_file(folder / name, content)
    return ["--no-glyph-names", *files.options, *(str(folder / name) for name in FILES)]


class Server:
    """A process that runs the program. What a new process uses is counted with what its parent uses, so that one is small."""

    def __init__(self, runner: Runner) -> None:
        self.folder = runner.folder
        self.end, other = multiprocessing.Pipe()
        self.process = multiprocessing.Process(target=under, args=(runner.limits, lambda: serve(runner, other)))

    def __enter__(self) -> "Server":
        self.process.start()
        return self

    def __exit__(self, *_: object) -> None:
        self.end.send(None)
        self.process.join()

    def run(self, words: list[str]) -> Answer:
        self.end.send(words)
        answer = self.end.recv()
        if isinstance(answer, OSError):
            raise answer
        return answer


def serve(runner: Runner, end: Any) -> None:
    """Runs the program with each list of words that comes, until none comes."""
    while True:
        words = end.recv()
        if words is None:
            return
        try:
            end.send(runner.run(words))
        except OSError as error:
            end.send(error)


def run_all(server: Server, theirs: Server | None, attacks: list[Attack], times: int) -> int:
    """Runs each, a line for each; the status is 1 where an answer is not right."""
    wrong: list[str] = []
    squares: list[str] = []
    for attack in attacks:
        measured = measure(server, attack, times)
        tell(attack, measured)
        if theirs is not None:
            tell_theirs(measured, beside(theirs, attack, times))
        wrong.extend([attack.name] if measured.wrong else [])
        squares.extend([attack.name] if measured.squares() else [])
    print(f"{len(attacks)} run, {len(wrong)} with an answer that is not right; like a square: {', '.join(squares) or 'none'}")
    return 1 if wrong else 0


def measure(server: Server, attack: Attack, times: int) -> Measured:
    """The answers at the three sizes, each the fastest of some runs; a run without an end is the last one."""
    answers: list[Answer] = []
    wrong = None
    for factor in FACTORS:
        size = attack.size * factor
        files = attack.files(size)
        words = write_files(server.folder, files)
        runs = [server.run(words) for _ in range(times)]
        answers.append(min(runs, key=lambda answer: answer.seconds))
        wrong = wrong or fault_of(attack, size, files, answers[-1])
        if answers[-1].status is None:
            break
    answers += answers[-1:] * (len(FACTORS) - len(answers))
    return Measured(answers, wrong)


def beside(theirs: Server, attack: Attack, times: int) -> list[Answer]:
    """The answers of hb-shape at the three sizes, none where it can't have the same files."""
    from attacks.beside import write_beside  # it needs fontTools

    answers: list[Answer] = []
    for factor in FACTORS:
        words = write_beside(theirs.folder, attack.files(attack.size * factor))
        if words is None:
            return []
        answers.append(min((theirs.run(words) for _ in range(times)), key=lambda answer: answer.seconds))
    return answers


def fault_of(attack: Attack, size: int, files: Files, answer: Answer) -> str | None:
    """What is wrong with an answer."""
    name = answer.name()
    if name not in attack.answers:
        return f"{name} at {size}, not {' or '.join(sorted(attack.answers))}"
    if name != "ok":
        return None
    if not is_line(("--no-glyph-names", *files.options), answer.out):
        return f"a line of another form at {size}"
    if attack.line is not None:
        start, end = attack.line(size)
        if not (answer.out.startswith(start.encode()) and answer.out.endswith(end.encode())):
            return f"another line at {size}"
    return None


def tell_theirs(measured: Measured, answers: list[Answer]) -> None:
    """The times of hb-shape at the three sizes, and whether its lines are the same."""
    if not answers:
        print(f"  {THEIRS:49} none: other tables, a font that isn't written as OpenType, or JSON", flush=True)
        return
    seconds = " ".join(f"{answer.seconds:7.3f}" for answer in answers)
    lines = [answer.out.strip().strip(b"[]") for answer in answers]
    is_same = lines == [answer.out.strip() for answer in measured.answers]
    print(f"  {THEIRS:49} {seconds} s  {'the same lines' if is_same else 'other lines'}", flush=True)


def tell(attack: Attack, measured: Measured) -> None:
    """The answer, times and memory at the three sizes."""
    seconds = " ".join(f"{answer.seconds:7.3f}" for answer in measured.answers)
    memory = " ".join(f"{answer.memory >> 20:5}" for answer in measured.answers)
    note = "".join(f"  [{part} like a square]" for part in measured.squares())
    wrong = f"  WRONG: {measured.wrong}" if measured.wrong else ""
    print(f"{attack.name:40} {attack.size:10,} {seconds} s {memory} MB  {measured.answers[0].name()}{note}{wrong}", flush=True)
