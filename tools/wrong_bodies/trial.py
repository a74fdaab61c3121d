"""A copy of a crate in which wrong bodies are tried.

One check tries many. Beside each function stands a copy of it for each of its wrong bodies, under the function's contract and attributes
and with copies of its proof files; what can't have a copy is turned where it stands, at most once a check. Only functions that are tried
are proved. The proof of each other one is a hole, since rt ci proves it in the same gate: what calls it stands on its contract alone.
"""
import os
import re
import shutil
import signal
import subprocess
from collections.abc import Iterator
from pathlib import Path

from crate_source import Function, functions_of
from libraries import Libraries
from records import Span, WrongBody
from told import ANSWER, Told, has_steps_of

# What a check writes when it has just checked a function.
CHECKED = re.compile(r"^checked (\S+), \d+ of \d+$", re.M)
# A proof that is left open.
HOLE = "use {module}.Statement.{{statement}}\n\npub {name}_spec : {{M : Type 1}} → statement M\n{name}_spec = ?\n"
# An answer to nothing that is left open. Of a function that has one the prover says which goals are open, but doesn't write out what
# answers to them would begin with, which takes a tenth of a check.
OPEN_ANSWER = "\npub open-answer : Unit\nopen-answer = ?\n"
# What takes the place of a function's body where its proof is left open, so that the check doesn't look at what it calls.
NO_BODY = "{ unreachable!() }\n"


class Unreached(Exception):
    """A check that didn't reach the prover, as where a wrong body doesn't compile."""


class Trial:
    """A folder in which wrong bodies of a crate are tried, one check after the other."""

    is_over = False  # of all: whether no more checks are to begin

    def __init__(self, crate: Path, libraries: Libraries, folder: str, keep: Path | None = None) -> None:
        self.crate, self.folder = crate, Path(folder)
        self.words = command(crate, libraries, keep)
        self.functions = list(functions_of(crate))
        self.seconds: dict[str, float] = {}  # what a check took of a processor for a function, by its path, but for the first
        self.by_answer: set[WrongBody] = set()  # the bodies that an answer of their function alone refuses

    def survivors(self, bodies: list[WrongBody]) -> dict[WrongBody, str]:
        """Those of these bodies that aren't refused, with what the prover says. One that a check of all isn't seen to refuse, as where
        a proof file names a goal that is gone, is tried again alone and where it stands."""
        told = self.check(bodies, has_open_answers=True)
        left = [it for it in bodies if not self.is_refused(it, told, it.path)]
        return {it: why for it in left if (why := self.told_in_place(it))}

    def told_in_place(self, body: WrongBody) -> str | None:
        """What a check of this body alone, turned where it stands, says of its function, if that isn't refused."""
        told = self.check([body], is_in_place=True)
        return None if self.is_refused(body, told, body.function.path) else told.of(body.function.path)

    def is_refused(self, body: WrongBody, told: Told, path: str) -> bool:
        """Whether a check refuses a body, whose function has this path in it."""
        function = body.function
        if not told.is_refused(path, function.cycle):
            return False
        has_own_steps = has_steps_of(body.text, function.text)
        if told.is_by_answer_alone(path, function.cycle, self.answered(function), has_own_steps):
            self.by_answer.add(body)
        return True

    def answered(self, function: Function) -> set[str]:
        """The goals of a function that have an answer by hand."""
        folders = [(*function.owner, function.name), *([proof_of(function)] if function.cycle else [])]
        files = [Path(self.crate, "proofs", *folder, "Answers.antt") for folder in folders]
        return {goal for it in files if it.is_file() for goal in ANSWER.findall(it.read_text())}

    def check(self, bodies: list[WrongBody], has_open_answers: bool = False, is_in_place: bool = False) -> Told:
        """What a check says of these bodies. Where they have an answer that is left open, only what it says of goals counts."""
        copied = [] if is_in_place else [it for it in bodies if it.is_copied]
        turned = [it for it in bodies if it not in copied]
        self.lay_out(copied, turned)
        for body in bodies if has_open_answers else []:
            leave_answer_open(Path(self.folder, "proofs", *(copy_of(body) if body in copied else proof_of(body.function))))
        paths = [*(it.path for it in copied), *(it.function.path for it in turned)]
        text = self.run([*self.words, *(word for path in paths for word in ("--only", path))])
        told = Told(text)
        if not told.verdicts:
            raise Unreached(f"{self.crate.name}: the prover was not reached:\n{text[:2000]}")
        return told

    def lay_out(self, copied: list[WrongBody], turned: list[WrongBody]) -> None:
        """Writes the crate into the folder, with these bodies."""
        for part in ("src", "specs", "proofs"):
            shutil.rmtree(self.folder / part, ignore_errors=True)
            if (self.crate / part).is_dir():
                shutil.copytree(self.crate / part, self.folder / part)
        spans: dict[str, list[Span]] = {}
        for body in copied:
            end = body.function.end
            spans.setdefault(body.function.file, []).append(Span(end, end, copy_text(body)))
            copy_proofs(body, self.folder)
        for body in turned:
            for file, span in body.spans.items():
                spans.setdefault(file, []).append(span)
        self.leave_others_open(turned, spans)
        for file, changes in spans.items():
            source = (self.crate / file).read_text()
            for start, end, new in sorted(changes, key=lambda it: it[:2], reverse=True):
                source = source[:start] + new + source[end:]
            (self.folder / file).write_text(source)

    def leave_others_open(self, turned: list[WrongBody], spans: dict[str, list[Span]]) -> None:
        """Leaves the proofs of the functions open that aren't turned, nor in a cycle with one that is, and takes their bodies away in
        what their files are to change."""
        kept = {proof_of(it.function) for it in turned}
        for function in (it for it in self.functions if proof_of(it) not in kept):
            others = spans.setdefault(function.file, [])
            if function.cycle:
                others.append(self.break_cycle(function))
            leave_open(self.folder, function)
            if function.body and not any(it.start < function.end and function.body < it.end for it in others):
                others.append(Span(function.body, function.end, NO_BODY))

    def break_cycle(self, function: Function) -> Span:
        """Drops the proof of a function's cycle of calls, in which without bodies nothing is, and returns what drops its attribute."""
        shutil.rmtree(Path(self.folder, "proofs", *proof_of(function)), ignore_errors=True)
        attribute = f"#[cycle({function.cycle})]\n"
        at = (self.crate / function.file).read_text().rindex(attribute, 0, function.start)
        return Span(at, at + len(attribute), "")

    def run(self, words: list[str]) -> str:
        """What a command writes; one that was killed, as happens without memory, is run once more."""
        for _ in range(2):
            if Trial.is_over:
                raise SystemExit("left")
            with subprocess.Popen(words, cwd=self.folder, stdout=subprocess.PIPE, stderr=subprocess.STDOUT, text=True, errors="replace") as ran:
                text = "".join(self.timed(ran))
            if ran.returncode != -signal.SIGKILL:
                break
        return text

    def timed(self, ran: "subprocess.Popen[str]") -> Iterator[str]:
        """What a check writes as it comes. It notes what each function takes but the first, before which what all need is checked."""
        before = None
        for line in ran.stdout or ():
            if found := CHECKED.match(line):
                now = cpu_seconds(ran.pid)
                if before is not None:
                    self.seconds[found[1]] = now - before
                before = now
            yield line


def command(crate: Path, libraries: Libraries, keep: Path | None) -> list[str]:
    """The command that checks a crate as rt does, over the libraries that are built, but past holes; it keeps what it checked in a
    folder, if one is given."""
    kit = Path(subprocess.run(["rt", "doc"], stdout=subprocess.PIPE, text=True, check=True).stdout.strip()).parent
    root = "src/main.rt" if (crate / "src/main.rt").exists() else "src/lib.rt"
    words = ["nice", f"{kit}/bin/rattle", "check", "--crate-name", crate.name, root, "-L", f"dependency={kit}/rlibs"]
    for name in ["std", *libraries.uses[crate.name]]:
        library = libraries.place(name) if name in libraries.uses else kit / "rlibs"
        words += ["--extern", f"{name}={library}/{name}.rlib"]
    for name in libraries.uses:
        words += ["-L", f"dependency={libraries.place(name)}"]
    words += ["--antt-project", f"{kit}/rattle/logic/antt-project.json", "--logic-built", f"{kit}/logic_built"]
    return [*words, "--jobs", "1", *(["--incremental", str(keep)] if keep else []), "--allow-holes", "--progress"]


def cpu_seconds(process: int) -> float:
    """The processor time that a process has taken."""
    fields = Path(f"/proc/{process}/stat").read_text().rpartition(")")[2].split()
    return (int(fields[11]) + int(fields[12])) / os.sysconf("SC_CLK_TCK")


def copy_name(body: WrongBody) -> str:
    """The name of the copy of a function that has a wrong body."""
    return f"{body.function.name}_wrong_{body.name}"


def copy_of(body: WrongBody) -> tuple[str, ...]:
    """The place of the proof files of a copy below that of the crate's."""
    return (*body.function.owner, copy_name(body))


def copy_text(body: WrongBody) -> str:
    """A copy of a function with a wrong body."""
    text = re.sub(rf"\bfn {body.function.name}\b", f"fn {copy_name(body)}", body.text, count=1)
    return "\n" + body.function.attributes + text


def copy_proofs(body: WrongBody, folder: Path) -> None:
    """Copies the function's proof files. They name its own modules by its path, as `Rattle.c.proofs.m.T.f.Goals`."""
    was = Path(folder, "proofs", *body.function.owner, body.function.name)
    owner = module_path(body.function).rpartition(".")[0]
    for file in was.glob("**/*.antt"):
        copy = Path(folder, "proofs", *copy_of(body), file.relative_to(was))
        copy.parent.mkdir(parents=True, exist_ok=True)
        copy.write_text(re.sub(rf"\b{re.escape(module_path(body.function))}(?=\.)", f"{owner}.{copy_name(body)}", file.read_text()))


def proof_of(function: Function) -> tuple[str, ...]:
    """The place of the proof files of a function, or of those of its cycle of calls, below that of the crate's."""
    return (*function.owner, f"+{function.cycle}" if function.cycle else function.name)


def leave_answer_open(place: Path) -> None:
    """Adds an answer to nothing, which is left open, to the answers of a function."""
    place.mkdir(parents=True, exist_ok=True)
    with Path(place, "Answers.antt").open("a") as answers:
        answers.write(OPEN_ANSWER)


def leave_open(folder: Path, function: Function) -> None:
    """Makes a function's proof a hole."""
    place = Path(folder, "proofs", *function.owner, function.name)
    for name in ("Answers.antt", "Invariants.antt"):
        (place / name).unlink(missing_ok=True)
    place.mkdir(parents=True, exist_ok=True)
    (place / "Proof.antt").write_text(HOLE.format(module=module_path(function), name=function.name))


def module_path(function: Function) -> str:
    """The module of the proof of a function."""
    return ".".join(["Rattle", function.crate, "proofs", *function.owner, function.name])
