#!/usr/bin/env python3
"""Writes the canonical text of a master file, by dnspython and not by zonenorm.

    make_canonical.py [--words] FILE ORIGIN

This is how example.canonical and signed.canonical were made: it is what zonenorm is compared with.
It reads what dnspython reads, refuses no zone that zonenorm refuses, and knows ten types alone; any
other is written in the generic form. With --words it is written in dnspython's words, so
signed.words was made."""
import ipaddress
import re
import sys

import dns.rdatatype
import dns.zone

# The parameters of HTTPS that zonewords writes without quotes.
BARE = re.compile(r'\b(mandatory|port|ipv4hint|ech|ipv6hint)="([^"]*)"')


def escaped(octets, special, blank):
    """Printable octets, the special ones after a backslash; every other octet, and a space unless
    allowed, by number."""
    return "".join(
        "\\" + chr(octet) if octet in special
        else chr(octet) if 33 <= octet <= 126 or (blank and octet == 32)
        else f"\\{octet:03}"
        for octet in octets
    )


def name(value):
    labels = [label for label in value.labels if label]
    return "".join(escaped(label.lower(), b'"$().;@\\', False) + "." for label in labels) or "."


def string(octets):
    return '"' + escaped(octets, b'"\\', True) + '"'


def data(rdata):
    """The data in words, or None where its type has none here."""
    match dns.rdatatype.to_text(rdata.rdtype):
        case "A":
            return str(ipaddress.IPv4Address(rdata.address))
        case "AAAA":
            return str(ipaddress.IPv6Address(rdata.address))
        case "NS" | "CNAME" | "PTR":
            return name(rdata.target)
        case "MX":
            return f"{rdata.preference} {name(rdata.exchange)}"
        case "TXT":
            return " ".join(map(string, rdata.strings))
        case "SRV":
            return f"{rdata.priority} {rdata.weight} {rdata.port} {name(rdata.target)}"
        case "NAPTR":
            strings = " ".join(map(string, (rdata.flags, rdata.service, rdata.regexp)))
            return f"{rdata.order} {rdata.preference} {strings} {name(rdata.replacement)}"
        case "SOA":
            numbers = (rdata.serial, rdata.refresh, rdata.retry, rdata.expire, rdata.minimum)
            return " ".join([name(rdata.mname), name(rdata.rname), *map(str, numbers)])


def line(owner, ttl, rdata, in_words):
    words = data(rdata)
    if words is None and in_words:
        words = BARE.sub(r"\1=\2", rdata.to_text(chunksize=0))
    if words is not None:
        return f"{name(owner)} {ttl} IN {dns.rdatatype.to_text(rdata.rdtype)} {words}\n"
    octets = rdata.to_digestable()
    digits = f" {octets.hex()}" if octets else ""
    return f"{name(owner)} {ttl} IN TYPE{int(rdata.rdtype)} \\# {len(octets)}{digits}\n"


def place(record):
    """The SOA first; then owners by their labels from the right (RFC 4034 6.1), types by number,
    data by octets (6.3)."""
    owner, _, rdata = record
    labels = [label.lower() for label in reversed(owner.labels)]
    return rdata.rdtype != dns.rdatatype.SOA, labels, rdata.rdtype, rdata.to_digestable()


def main():
    *options, path, origin = sys.argv[1:]
    zone = dns.zone.from_file(path, origin, relativize=False, check_origin=False)
    for record in sorted(zone.iterate_rdatas(), key=place):
        sys.stdout.write(line(*record, "--words" in options))


main()
