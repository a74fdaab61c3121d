"""`zonectl fleet`: compares many zones with many servers."""
from __future__ import annotations

import argparse
import os
import time
from typing import Any

from ..bounds import Limits, octets
from ..errors import Status, Undone, Usage
from ..fleet import config as configuration
from ..fleet import zones as naming
from ..fleet.comparing import Pair, comparers, failed, pair_of
from ..fleet.results import Progress, Results, merged, read
from ..fleet.state import State
from ..options import Parser, add_jobs, add_output, default_jobs
from ..outputs import Output
from ..reading import Access
from ..texts import coloured, counted, duration
from ..workers import Gone, answers
from ..zones import Reader

ABOUT = """\
run compares zones with what servers send of them, as a configuration says (zonectl-fleet.toml(5)).
report makes the text, the page and the metrics of a results file; merge puts those of all parts together.
SOA records are asked for first: a zone is transferred only if its serial is the reference's."""
USAGE = """run [OPTION].. -c FILE
       zonectl fleet report [OPTION].. RESULTS
       zonectl fleet merge [OPTION].. -o ALL RESULTS.."""
OF_RUN = ("config", "full", "part", "results", "exit_zero", "check_config")


def parser() -> Parser:
    """Returns the parser."""
    made = Parser("fleet", USAGE, ABOUT)
    made.words = ("run", "report", "merge")
    made.option("-c", "--config", metavar="FILE", help="the configuration (run)")
    made.option("--check-config", action="store_true", help="read the configuration and what it names, and compare nothing (run)")
    made.option("--full", action="store_true", help="transfer all zones, whatever the state says (run)")
    made.option("--part", type=naming.part, metavar="K/N", help="compare the K-th of N parts; auto/N in a task of Slurm or an indexed job "
                "(run)")
    made.option("--results", metavar="FILE", help="write the results as lines of JSON (run)")
    made.option("--exit-zero", action="store_true", help="status 0 if the results were written (run)")
    made.option("--html", metavar="FILE", help="write a page of HTML")
    made.option("--metrics", metavar="FILE", help="write metrics for Prometheus")
    made.option("--verbose", action="store_true", help="a line on standard error for each zone that isn't compared")
    made.option("--max-size", type=octets, default=128 << 20, metavar="SIZE",
                help="bound of one source after decompression (128M; at most 1G)")
    add_jobs(made)
    add_output(made, has_json=False)
    return made


def run(given: argparse.Namespace, output: Output) -> int:
    """Compares, or makes the outputs of a comparison."""
    if not given.operands or given.operands[0] not in ("run", "report", "merge"):
        raise Usage("it takes run, report or merge")
    command, operands = given.operands[0], given.operands[1:]
    if command == "run":
        if operands or not given.config:
            raise Usage("run takes no operands and needs --config FILE")
        if given.exit_zero and not given.results:
            raise Usage("--exit-zero goes with --results")
        return compare(given, output)
    if any(getattr(given, it) for it in OF_RUN):
        raise Usage(f"{command} takes --html, --metrics, --output, --quiet, --color and --verbose alone")
    if command == "report":
        if len(operands) != 1:
            raise Usage("report takes one RESULTS")
        return told(read(operands[0]), given, output, given.output)
    if not operands or not given.output:
        raise Usage("merge needs RESULTS and -o ALL")
    found = merged(operands)
    output.result(found.lines(), given.output)
    return told(found, given, output)


def compare(given: argparse.Namespace, output: Output) -> int:
    """Runs a comparison."""
    began = time.monotonic()
    config = configuration.read(given.config)
    part, parts = given.part or (1, 1)
    for name in ("html", "metrics", "results"):  # those of the command line begin in this folder
        stated = getattr(given, name)
        setattr(given, name, os.path.abspath(stated) if stated else getattr(config.output, name))
    given.output = os.path.abspath(given.output) if given.output else None
    before = os.getcwd()
    os.chdir(os.path.dirname(os.path.abspath(given.config)))
    try:
        for name in ("html", "metrics", "results"):
            setattr(given, name, (getattr(given, name) or "").replace("{part}", str(part)) or None)
        return _compare(given, output, config, part, parts, began)
    finally:
        os.chdir(before)


def _compare(given: argparse.Namespace, output: Output, config: configuration.Config, part: int, parts: int, began: float) -> int:
    keys = config.keys_read(output)
    reader = Reader(Access(Limits(given.max_size, run_deadline=0), {it.name: it for it in keys.values()}))
    zones = naming.zones_of(config, reader)
    servers = [it.name for it in config.server if it.name != config.run.reference]
    if given.check_config:
        return output.answer(f"{counted(len(zones), 'zone')} on {counted(len(servers), 'server')}\n", Status.SAME, given.output)
    found = Results(config.digest, naming.digest(zones), servers, part, parts, round(time.time()))
    mine = zones[part - 1 :: parts]
    state_path = config.run.state and config.run.state.replace("{part}", str(part))
    state = State(state_path, config.run, given.full)
    jobs = given.jobs or config.run.jobs or default_jobs()
    memory = octets(config.run.memory, 1 << 40) if config.run.memory else None
    together, make = comparers(config, mine, keys, state, given.max_size, max(1, min(jobs, len(mine))))
    progress, ends = Progress(len(mine)), began + config.run.deadline if config.run.deadline else None
    of_zones: dict[int, list[Pair]] = {}
    for number, came in answers(len(mine), jobs, make, memory, ends, together.ended):
        of_zones[number] = came if isinstance(came, list) else _lost(config, mine[number].name, servers, came)
        progress.add(of_zones[number])
    progress.write()
    found.pairs = [pair for number in sorted(of_zones) for pair in of_zones[number]]
    found.seconds = round(time.monotonic() - began, 2)
    is_kept = _tried(output, lambda: state.keep(found.pairs))
    if given.results:
        is_kept = _tried(output, lambda: output.result(found.lines(), given.results)) and is_kept
    status = told(found, given, output, given.output)
    return Status.UNDONE if not is_kept else Status.SAME if given.exit_zero else status


def _lost(config: configuration.Config, zone: str, servers: list[str], came: Gone | None) -> list[Pair]:
    """Returns the pairs of a zone whose worker gave no answer."""
    reason = f'a worker ran out of memory (memory = "{config.run.memory}")' if came is None else str(came)
    if came is not None and not came:
        reason = f'the run took longer than {duration(config.run.deadline)} (deadline)'
    own = config.for_zone(zone).servers
    return [failed(pair_of(zone, it), Status.UNDONE, reason) for it in servers if own is None or it in own]


def _tried(output: Output, work: Any) -> bool:
    """Whether something could be written. If not, the reason goes to standard error, and the rest is written."""
    try:
        work()
        return True
    except Undone as failure:
        output.failed(failure)
        return False


def told(found: Results, given: argparse.Namespace, output: Output, path: str | None = None) -> int:
    """Writes what a run came to, and returns the status."""
    from ..fleet.metrics import metrics
    from ..fleet.page import page

    status, text, last = found.status, "".join(found.differences()), f"{found.summary()}\n"
    for name, make in ((given.html, page), (given.metrics, metrics)):  # first, since nobody may read the text
        if name and not _tried(output, lambda: output.result(make(found), name)):
            status = int(Status.UNDONE)
    if not path:
        output.answer(coloured(text) if output.has_colours else text, status)
    found.tell(output, given.verbose)
    return output.answer(text + last if path else last, status, path)
