//! The calls, on the examples of the repository. Expected values are those files' own.

use std::num::NonZeroU64;
use std::thread;
use zonenorm_sys::{
    compare, diff, digest, generic, normalise, presentation, records, verify, Algorithm, Comparison, Error, Input, Place, Verdict,
};

const FIRST: &[u8] = include_bytes!("../../../examples/first.zone");
const CANONICAL: &str = "example. 3600 IN SOA ns1.example. hostmaster.example. 2026112401 7200 1800 1209600 3600\n\
    example. 3600 IN NS ns1.example.\n\
    ns1.example. 3600 IN A 192.0.2.1\n\
    www.example. 300 IN CNAME example.\n";
const REFUSED: &[u8] = include_bytes!("../../../examples/refused-differing-ttl.zone");
const SIGNED: &[u8] = include_bytes!("../../../examples/signed-by-knot.axfr");

#[test]
fn a_file_has_its_canonical_text() {
    let zone = normalise(&Input::file(FIRST, "example.")).unwrap();
    assert_eq!((std::str::from_utf8(&zone.text).unwrap(), zone.records), (CANONICAL, 4));
    let again = normalise(&Input::plain_file(&zone.text, ".")).unwrap();
    assert_eq!(again, zone);
}

#[test]
fn a_refusal_has_its_fault_and_place() {
    let Err(Error::Refused(refusal)) = normalise(&Input::file(REFUSED, "example.")) else { panic!("accepted") };
    assert_eq!(refusal.text, "F41 DifferingTtl at line 4: the TTL differs from that of its record set");
    assert_eq!((refusal.fault, refusal.place, refusal.which), (41, Place::Line(4), None));
    let Err(Error::Refused(refusal)) = compare(&Input::file(FIRST, "example."), &Input::file(REFUSED, "example.")) else {
        panic!("accepted")
    };
    assert_eq!(refusal.which, Some(2));
    assert_eq!(normalise(&Input::file(FIRST, "example")), Err(Error::BadOrigin));
    let short = Input::file(FIRST, "example.").with_limit(NonZeroU64::MIN);
    let Err(Error::Refused(refusal)) = normalise(&short) else { panic!("accepted") };
    assert_eq!((refusal.fault, refusal.place), (45, Place::Whole));
    assert_eq!(normalise(&Input::transfer(&[])).map_err(|it| matches!(it, Error::Refused(_))), Err(true));
}

#[test]
fn records_are_those_of_the_text() {
    let found = records(&Input::file(FIRST, "example.")).unwrap();
    assert_eq!((found.count(), found.iter().count()), (4, 4));
    let last = found.iter().last().unwrap();
    assert_eq!((last.owner, last.rdtype, last.rdclass, last.ttl), (&b"\x03www\x07example\0"[..], 5, 1, 300));
    assert_eq!(last.rdata, b"\x07example\0");
    let all: usize = found.iter().map(|it| it.owner.len() + 10 + it.rdata.len()).sum();
    assert_eq!(all, found.octets().len());
}

#[test]
fn zones_are_compared() {
    let (one, other) = (Input::file(FIRST, "example."), Input::file(CANONICAL.as_bytes(), "."));
    assert_eq!(compare(&one, &other), Ok(Comparison::Same));
    let longer = format!("{CANONICAL}zz.example. 300 IN A 192.0.2.9\n");
    assert_eq!(compare(&one, &Input::file(longer.as_bytes(), ".")), Ok(Comparison::Different { line: 5 }));
}

#[test]
fn differences_of_zones() {
    let soa = "@ 60 SOA . . 1 2 3 4 5\n";
    let (first, second) = (format!("{soa}d DNAME New\nt TXT a\n"), format!("{soa}d DNAME new\nt TXT b\n"));
    let (one, other) = (Input::file(first.as_bytes(), "x."), Input::file(second.as_bytes(), "x."));
    let folded = diff(&one, &other, true).unwrap();
    assert_eq!((&folded.removed[..], &folded.added[..]), (&b"t.x. 60 IN TXT \"a\"\n"[..], &b"t.x. 60 IN TXT \"b\"\n"[..]));
    assert_eq!((folded.records, diff(&one, &other, false).unwrap().records), (2, 4));
    let same = diff(&one, &one, false).unwrap();
    assert_eq!((&same.removed[..], &same.added[..], same.records), (&b""[..], &b""[..], 0));
    let Err(Error::Refused(refusal)) = diff(&Input::file(FIRST, "example."), &Input::file(REFUSED, "example."), true) else {
        panic!("accepted")
    };
    assert_eq!((refusal.fault, refusal.which), (41, Some(2)));
}

#[test]
fn digests_are_made_and_verified() {
    assert!(verify(&Input::transfer(SIGNED)).unwrap().contains(&Verdict::Verified));
    assert_eq!(verify(&Input::file(FIRST, "example.")), Ok(vec![]));
    for algorithm in [Algorithm::Sha384, Algorithm::Sha512] {
        let line = digest(&Input::file(FIRST, "example."), algorithm).unwrap();
        let with = [CANONICAL.as_bytes(), &line].concat();
        assert_eq!(verify(&Input::file(&with, ".")), Ok(vec![Verdict::Verified]));
    }
}

#[test]
fn presentation_format_goes_both_ways() {
    // RFC 8659 4.1.1: flags, tag and value, of which the tag has its length before it.
    let canonical = "example. 60 IN TYPE257 \\# 22 000569737375656361312e6578616d706c652e6e6574\n";
    let text = presentation(canonical.as_bytes()).unwrap();
    assert_eq!(std::str::from_utf8(&text).unwrap(), "example. 60 IN CAA 0 issue \"ca1.example.net\"\n");
    assert_eq!(&*generic(&text, ".").unwrap(), canonical.as_bytes());
    let Err(Error::Refused(refusal)) = generic(b"@ 60 CAA 0 issue\n", "example.") else { panic!("rewritten") };
    assert_eq!((refusal.text.as_str(), refusal.fault), ("line 1: CAA, value: nothing left", 0));
}

#[test]
fn threads_share_an_input_and_a_text() {
    let zone = normalise(&Input::file(FIRST, "example.")).unwrap();
    thread::scope(|scope| {
        for _ in 0..4 {
            scope.spawn(|| {
                for _ in 0..100 {
                    assert_eq!(normalise(&Input::file(&zone.text, ".")).unwrap(), zone);
                }
            });
        }
    });
}
