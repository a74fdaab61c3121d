"""The metrics of a run for Prometheus, as node_exporter's textfile collector reads them."""
from __future__ import annotations

from collections.abc import Callable, Iterator
from typing import Any

from .comparing import Pair
from .results import RESULTS, Results

Values = Callable[[Pair], dict[str, Any]]  # the side, or nothing, and the value


def label(text: str) -> str:
    r"""Returns the value of a label: printable ASCII, other octets as `\DDD`, and then escaped."""
    octets = text.encode("utf-8", "surrogateescape" if any("\udc80" <= it <= "\udcff" for it in text) else "surrogatepass")
    shown = "".join(chr(it) if 32 <= it < 127 else f"\\{it:03d}" for it in octets)
    return '"' + shown.replace("\\", "\\\\").replace('"', '\\"').replace("\n", "\\n") + '"'


def _is_compared(it: Pair) -> bool:
    return int(it["status"]) < 2


def _sides(name: str) -> Values:
    return lambda it: {side: it[name][side] for side in ("reference", "server") if it[name][side] is not None} if _is_compared(it) else {}


OF_PAIRS: dict[str, tuple[str, Values]] = {
    "status": ("0 same, 1 different, 3 refused, 4 not compared", lambda it: {"": it["status"]}),
    "under_one_serial": (
        "1 if both differ under one serial", lambda it: {"": int(it["result"] == "one-serial")} if _is_compared(it) else {}),
    "serial": ("Serial of the SOA record", _sides("serials")),
    "records": ("Records of the zone", _sides("records")),
    "transferred": ("1 if the zone was transferred", lambda it: {"": int(it["transferred"])} if _is_compared(it) else {}),
    "timestamp_seconds": ("When it was compared", lambda it: {"": it["at"]}),
}


def metrics(found: Results) -> str:
    """Returns the text of the metrics."""
    return "".join(_lines(found))


def _head(name: str, what: str) -> str:
    return f"# HELP zonectl_{name} {what}\n# TYPE zonectl_{name} gauge\n"


def _lines(found: Results) -> Iterator[str]:
    labels = [f"zone={label(it['zone'])},server={label(it['server'])}" for it in found.pairs]
    for name, (what, values) in OF_PAIRS.items():
        yield _head(name, what)
        for own, it in zip(labels, found.pairs):
            for side, value in values(it).items():
                more = f',side="{side}"' if side else ""
                yield f"zonectl_{name}{{{own}{more}}} {value}\n"
    up = {it["server"] for it in found.pairs if it["answered"]}
    yield _head("server_up", "1 if the server answered a query")
    yield from (f"zonectl_server_up{{server={label(it)}}} {int(it in up)}\n" for it in found.servers)
    yield _head("run_timestamp_seconds", "When the run began") + f"zonectl_run_timestamp_seconds {found.at}\n"
    yield _head("run_seconds", "How long the run took") + f"zonectl_run_seconds {found.seconds}\n"
    counts = found.counts()
    yield _head("run_pairs", "Pairs of zone and server by result")
    yield from (f'zonectl_run_pairs{{result="{it}"}} {counts[it]}\n' for it in RESULTS)
