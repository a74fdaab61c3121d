"""`zonectl fetch`: keeps the octets of a remote source."""
from __future__ import annotations

import argparse

from ..errors import Failure, Status, Usage, about
from ..options import Parser, access_of, add_output, add_sources
from ..outputs import Output
from ..reading import stored_octets, transferred
from ..sources import Server, Web, sources_of
from ..texts import counted, duration, size

ABOUT = """\
Keeps the octets that a server sends: of a transfer the messages, each after its length of two octets, up to the closing SOA.
`zonectl normalise FILE` reads and judges them."""


def parser() -> Parser:
    """Returns the parser."""
    made = Parser("fetch", "[OPTION].. SOURCE [-o FILE]", ABOUT)
    made.option("--partial", action="store_true", help="keep what came before a failure")
    add_output(made)
    add_sources(made, has_origin=False)
    return made


def run(given: argparse.Namespace, output: Output) -> int:
    """Fetches a source."""
    sources = sources_of(given.operands)
    if len(sources) != 1:
        raise Usage("it takes one SOURCE")
    source = sources[0]
    if not isinstance(source, Server | Web):
        raise Usage("fetch keeps what a server sends: axfr://, axfrs:// or https://", source.text)
    if given.json and not given.output:
        raise Usage("--json needs -o FILE, since standard output has the octets")
    access, kept, failure = access_of(given, output), bytearray(), None
    clock, messages = access.limits.clock("it"), 0
    try:
        with about(source.text):
            if isinstance(source, Server):
                messages = transferred(source, access, kept.extend)
            else:
                kept += stored_octets(source, access)
    except Failure as it:
        if not given.partial:
            raise
        failure = it
    seconds = round(clock.taken, 2)
    output.result(bytes(kept), given.output)
    if failure:
        raise failure
    zone = source.zone if isinstance(source, Server) else None
    what = f"the zone {zone}, {size(len(kept))} in {counted(messages, 'message')}" if zone else size(len(kept))
    output.note(f"{what}, {duration(seconds)}", source.text)
    return output.answer({
        "format": "zonectl-fetch/1", "status": 0, "source": source.text, "zone": zone, "octets": len(kept),
        "messages": messages if zone else None, "seconds": seconds,
        "signed": isinstance(source, Server) and access.key_of(source) is not None,
    } if given.json else "", Status.SAME)
