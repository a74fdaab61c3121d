"""What `dig ZONE axfr` wrote."""
from __future__ import annotations

import re

from .errors import Refusal

# What dig says of a transfer that failed.
TROUBLE = re.compile(rb"^(?:; Transfer failed|;; Couldn.t verify|;; WARNING -- Some TSIG)", re.M)
NOT_ASCII = re.compile(rb"[\x80-\xff]")
SIGNATURE = re.compile(rb"^[ \t]*[^;\s]\S*[ \t]+\S+[ \t]+(?:ANY|CLASS255)[ \t]+(?:TSIG|TYPE250)\b.*", re.M)


def master_file(octets: bytes) -> bytes:
    """Returns what dig wrote as a master file, without the lines of TSIG. Raises Refusal.

    One SOA is the first record and the last, and there is none between.
    """
    if found := NOT_ASCII.search(octets):
        line = octets.count(b"\n", 0, found.start()) + 1
        raise Refusal("an octet over 127: kdig writes internationalised names in UTF-8; call it with +noidn", line=line)
    text = SIGNATURE.sub(b"", octets)
    records = [it for it in text.split(b"\n") if it.strip() and not it.lstrip().startswith(b";")]
    soas = [it for it in records if it.split()[3:4] in ([b"SOA"], [b"TYPE6"])]
    if TROUBLE.search(octets) or len(soas) != 2 or not soas[0] == soas[1] == records[0] == records[-1]:
        raise Refusal("the transfer isn't whole: its SOA isn't just at both ends, or dig reports a failure")
    return text
