//! The calls of the library.

use crate::error::Error;
use crate::ffi::{self, zonenorm_answer, zonenorm_input, zonenorm_octets};
use crate::input::Input;
use crate::records::WireRecords;
use crate::text::Text;

/// The canonical text of a zone.
#[derive(Debug, PartialEq, Eq)]
pub struct Normalised {
    /// The text: a line for each record.
    pub text: Text,
    /// How many records there are.
    pub records: u64,
}

/// What a comparison of two zones says.
#[derive(Clone, Copy, Debug, PartialEq, Eq)]
pub enum Comparison {
    /// Both inputs denote one zone.
    Same,
    /// They denote two zones, whose canonical texts first differ at this line, from 1.
    Different {
        /// The line.
        line: u64,
    },
}

/// The records in which two zones differ, in canonical order.
#[derive(Debug, PartialEq, Eq)]
pub struct Difference {
    /// The records of the first zone of which the second has no equal, a canonical line each.
    pub removed: Text,
    /// The records of the second zone of which the first has none.
    pub added: Text,
    /// How many records both texts have.
    pub records: u64,
}

/// A hash algorithm of ZONEMD records (RFC 8976 5.3).
#[derive(Clone, Copy, Debug, PartialEq, Eq)]
pub enum Algorithm {
    /// SHA-384, number 1.
    Sha384,
    /// SHA-512, number 2.
    Sha512,
}

/// What was found of a ZONEMD record at the apex (RFC 8976 4).
#[derive(Clone, Copy, Debug, PartialEq, Eq)]
#[non_exhaustive]
pub enum Verdict {
    /// Its data is malformed.
    Malformed,
    /// Its serial isn't that of the SOA record.
    OtherSerial,
    /// Its scheme is unknown.
    UnknownScheme,
    /// Its hash algorithm is unknown.
    UnknownAlgorithm,
    /// Another record has the same scheme and hash algorithm.
    Repeated,
    /// Its digest differs.
    Differs,
    /// It verifies the zone.
    Verified,
}

const VERDICTS: [Verdict; 7] = [
    Verdict::Malformed,
    Verdict::OtherSerial,
    Verdict::UnknownScheme,
    Verdict::UnknownAlgorithm,
    Verdict::Repeated,
    Verdict::Differs,
    Verdict::Verified,
];

/// Makes a call that hands out one text.
fn call(make: impl FnOnce(*mut zonenorm_octets, *mut zonenorm_answer)) -> Result<(Text, zonenorm_answer), Error> {
    let (mut octets, mut answer) = (Text::NONE, zonenorm_answer::default());
    make(&mut octets, &mut answer);
    // The call wrote `octets`, and nothing else frees it.
    let text = unsafe { Text::taken(octets) };
    match Error::of(&answer, &text) {
        None => Ok((text, answer)),
        Some(error) => Err(error),
    }
}

/// Makes a call on one input.
fn call_on(
    input: &Input<'_>,
    export: unsafe extern "C" fn(*const zonenorm_input, *mut zonenorm_octets, *mut zonenorm_answer),
) -> Result<(Text, zonenorm_answer), Error> {
    let given = input.lent();
    // What `given` points to lives as long as `input`, and the library keeps nothing.
    call(|text, answer| unsafe { export(&given, text, answer) })
}

/// The canonical text of the zone that an input denotes.
///
/// # Errors
///
/// `Refused` if it denotes none; `BadOrigin`; `NoMemory`.
pub fn normalise(input: &Input<'_>) -> Result<Normalised, Error> {
    let (text, answer) = call_on(input, ffi::zonenorm_normalise)?;
    Ok(Normalised { text, records: answer.count })
}

/// The records of the zone that an input denotes, in canonical order.
///
/// # Errors
///
/// Those of [`normalise`].
pub fn records(input: &Input<'_>) -> Result<WireRecords, Error> {
    let (text, answer) = call_on(input, ffi::zonenorm_records)?;
    Ok(WireRecords { text, count: answer.count })
}

/// Whether two inputs denote one zone.
///
/// # Errors
///
/// `Refused`, with the input that is refused; `BadOrigin`; `NoMemory`.
pub fn compare(first: &Input<'_>, second: &Input<'_>) -> Result<Comparison, Error> {
    let (one, other) = (first.lent(), second.lent());
    // As in `call_on`.
    let (_, answer) = call(|text, answer| unsafe { ffi::zonenorm_compare(&one, &other, text, answer) })?;
    Ok(match answer.status {
        ffi::DIFFERENT => Comparison::Different { line: answer.line },
        _ => Comparison::Same,
    })
}

/// The records in which two zones differ. With `fold_names` names in record data are compared without regard to case (RFC 4343); a
/// record keeps its letters.
///
/// # Errors
///
/// `Refused`, with the input that is refused; `BadOrigin`; `NoMemory`.
pub fn diff(first: &Input<'_>, second: &Input<'_>, fold_names: bool) -> Result<Difference, Error> {
    let (one, other) = (first.lent(), second.lent());
    let flags = if fold_names { ffi::FOLD_NAMES } else { 0 };
    let mut octets = Text::NONE;
    // As in `call_on`; what is added is taken at once.
    let made = call(|removed, answer| unsafe { ffi::zonenorm_diff(&one, &other, flags, removed, &mut octets, answer) });
    let added = unsafe { Text::taken(octets) };
    made.map(|(removed, answer)| Difference { removed, added, records: answer.count })
}

/// What is found of each ZONEMD record at the apex (RFC 8976 4). The zone is verified if one is `Verified`.
///
/// # Errors
///
/// Those of [`normalise`].
pub fn verify(input: &Input<'_>) -> Result<Vec<Verdict>, Error> {
    let (text, _) = call_on(input, ffi::zonenorm_verify)?;
    Ok(text.iter().filter_map(|&it| VERDICTS.get(usize::from(it)).copied()).collect())
}

/// The canonical line of the ZONEMD record that states the zone's digest.
///
/// # Errors
///
/// Those of [`normalise`].
pub fn digest(input: &Input<'_>, algorithm: Algorithm) -> Result<Text, Error> {
    let (given, number) = (input.lent(), algorithm as u32 + 1);
    // As in `call_on`.
    Ok(call(|text, answer| unsafe { ffi::zonenorm_digest(&given, number, text, answer) })?.0)
}

/// A master file with the data of all but ten types in the generic form (RFC 3597), line by line.
///
/// # Errors
///
/// `Refused`, with number 0, if an entry states no data of its type; `BadOrigin`; `NoMemory`.
pub fn generic(octets: &[u8], origin: &str) -> Result<Text, Error> {
    let (input, mut octets) = (Input::file(octets, origin).lent(), Text::NONE);
    // As in `call_on`; the reason is taken at once.
    let (text, answer, reason) = unsafe {
        let (mut reason, mut answer) = (Text::NONE, zonenorm_answer::default());
        ffi::zonenorm_generic(&input, &mut octets, &mut reason, &mut answer);
        (Text::taken(octets), answer, Text::taken(reason))
    };
    match Error::of(&answer, &reason) {
        None => Ok(text),
        Some(error) => Err(error),
    }
}

/// A canonical text, or a diff of two, with all data in presentation format, for people.
///
/// # Errors
///
/// `NoMemory`.
pub fn presentation(canonical: &[u8]) -> Result<Text, Error> {
    // As in `call_on`.
    Ok(call(|text, answer| unsafe { ffi::zonenorm_words(canonical.as_ptr(), canonical.len(), text, answer) })?.0)
}
