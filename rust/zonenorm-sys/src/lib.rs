//! DNS zones in their one canonical text, by the proved engine of zonenorm.
//!
//! Two inputs have the same canonical text if and only if they denote the same zone. An input is a master file with its origin, or a
//! zone transfer as it came over TCP.
//!
//! ```
//! use zonenorm_sys::{compare, normalise, Comparison, Input};
//!
//! let file = b"$TTL 1h\n@ SOA ns1 hostmaster 7 2h 30m 2w 1h\n NS NS1\nns1 A 192.0.2.1\n";
//! let zone = normalise(&Input::file(file, "example."))?;
//! assert_eq!(zone.records, 3);
//! assert!(zone.text.ends_with(b"ns1.example. 3600 IN A 192.0.2.1\n"));
//! assert_eq!(compare(&Input::file(file, "example."), &Input::file(&zone.text, "."))?, Comparison::Same);
//!
//! let error = normalise(&Input::file(b"@ 60 A 192.0.2.1\n", "example.")).unwrap_err();
//! assert_eq!(error.to_string(), "F42 NoSoa in the input: the zone has no SOA record");
//! # Ok::<(), zonenorm_sys::Error>(())
//! ```
//!
//! The engine is proved up to the C call. This crate, the linker and `malloc` are not. A call keeps nothing afterwards, and may run in
//! any number of threads at once.
#![deny(unsafe_op_in_unsafe_fn)]

mod calls;
mod error;
pub mod ffi;
mod input;
mod records;
mod text;

pub use calls::{
    compare, diff, digest, generic, normalise, presentation, records, verify, Algorithm, Comparison, Difference, Normalised, Verdict,
};
pub use error::{Error, Place, Refusal};
pub use input::Input;
pub use records::{Record, Records, WireRecords};
pub use text::Text;
