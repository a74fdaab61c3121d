#!/usr/bin/env python3
"""Writes a zone transfer as a server sends it over TCP: messages with compressed names, each after its length.

    make_stream.py FILE ORIGIN > STREAM

This is how example.axfr was made of example.zone. It needs dnspython. The question stands in the first message alone;
the records come last owner first."""
import struct
import sys

import dns.flags
import dns.message
import dns.rdatatype
import dns.rrset
import dns.zone

ID = 0x2A17
RECORDS_A_MESSAGE = 8


def main():
    path, origin = sys.argv[1:]
    zone = dns.zone.from_file(path, origin, relativize=False, check_origin=False)
    records = sorted(zone.iterate_rdatas(), key=lambda record: record[0], reverse=True)
    opening = [record for record in records if record[2].rdtype == dns.rdatatype.SOA]
    others = [record for record in records if record[2].rdtype != dns.rdatatype.SOA]
    answers = opening + others + opening

    query = dns.message.make_query(origin, "AXFR", id=ID, flags=0)
    for start in range(0, len(answers), RECORDS_A_MESSAGE):
        message = dns.message.make_response(query)
        message.flags |= dns.flags.AA
        if start > 0:
            message.question = []
        for owner, ttl, rdata in answers[start:start + RECORDS_A_MESSAGE]:
            message.answer.append(dns.rrset.from_rdata(owner, ttl, rdata))
        octets = message.to_wire()
        sys.stdout.buffer.write(struct.pack("!H", len(octets)) + octets)


main()
