"""The types of records by their mnemonics (IANA, "Resource Record (RR) TYPEs")."""
from __future__ import annotations

import re

# Those that have a presentation format here, and the obsolete ones whose names are folded.
TYPES = dict(
    A=1, NS=2, MD=3, MF=4, CNAME=5, SOA=6, MB=7, MG=8, MR=9, PTR=12, HINFO=13, MINFO=14, MX=15, TXT=16, RP=17, AFSDB=18, X25=19,
    ISDN=20, RT=21, SIG=24, KEY=25, PX=26, GPOS=27, AAAA=28, LOC=29, NXT=30, EID=31, NIMLOC=32, SRV=33, NAPTR=35, KX=36, CERT=37, A6=38,
    DNAME=39, SINK=40, APL=42, DS=43, SSHFP=44, IPSECKEY=45, RRSIG=46, NSEC=47, DNSKEY=48, DHCID=49, NSEC3=50, NSEC3PARAM=51, TLSA=52,
    SMIMEA=53, HIP=55, NINFO=56, RKEY=57, TALINK=58, CDS=59, CDNSKEY=60, OPENPGPKEY=61, CSYNC=62, ZONEMD=63, SVCB=64, HTTPS=65,
    DSYNC=66, SPF=99, NID=104, L32=105, L64=106, LP=107, EUI48=108, EUI64=109, URI=256, CAA=257, AMTRELAY=260, RESINFO=261, WALLET=262,
    TA=32768, DLV=32769, **{"NSAP-PTR": 23},
)
OF_SIGNERS = frozenset((46, 47, 48, 50, 51, 59, 60, 63, 65534))
OF_THE_TEXT = {it: TYPES[it] for it in ("A", "NS", "CNAME", "SOA", "PTR", "MX", "TXT", "AAAA", "SRV", "NAPTR")}
IN_THE_TEXT = {number: name for name, number in OF_THE_TEXT.items()}


def type_number(text: str) -> int:
    """Returns the number of a type, from its mnemonic or from TYPE and a number (RFC 3597 5). Raises ValueError."""
    mnemonic = text.upper()
    digits = re.fullmatch("TYPE([0-9]{1,5})", mnemonic)
    number = int(digits[1]) if digits else TYPES.get(mnemonic, 65536)
    if number > 65535:
        raise ValueError(f"not a type: {text}")
    return number


def in_the_text(number: int) -> str:
    """Returns a type as the canonical text has it."""
    return IN_THE_TEXT.get(number) or f"TYPE{number}"
