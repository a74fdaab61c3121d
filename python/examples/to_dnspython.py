"""to_dnspython.py: makes a dnspython zone of a zonenorm.Zone, and prints it (needs dnspython)."""
import struct
import sys

import dns.name
import dns.rdata
import dns.rdataclass
import dns.rdatatype
import dns.zone

import zonenorm


def to_dnspython(zone: zonenorm.Zone) -> dns.zone.Zone:
    """Return the zone as a dns.zone.Zone with absolute names."""
    made = dns.zone.Zone(zone.apex, dns.rdataclass.from_text(zone.rdclass), relativize=False)
    wire, at = zone.wire(), 0
    while at < len(wire):
        owner, used = dns.name.from_wire(wire, at)
        rdtype, rdclass, ttl, size = struct.unpack_from("!HHIH", wire, at + used)
        at += used + 10
        rdata = dns.rdata.from_wire(rdclass, rdtype, wire, at, size)
        made.find_rdataset(owner, rdtype, rdata.covers(), create=True).add(rdata, ttl)
        at += size
    return made


if __name__ == "__main__":
    for name, ttl, rdata in to_dnspython(zonenorm.Zone.from_file(sys.argv[1], sys.argv[2])).iterate_rdatas():
        print(name, ttl, dns.rdatatype.to_text(rdata.rdtype), rdata)
