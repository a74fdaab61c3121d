//! Prints the canonical text of a master file: `first FILE ORIGIN`.

use std::process::ExitCode;
use zonenorm_sys::{normalise, Input};

fn main() -> ExitCode {
    let arguments: Vec<String> = std::env::args().skip(1).collect();
    let [path, origin] = arguments.as_slice() else {
        eprintln!("usage: first FILE ORIGIN");
        return ExitCode::from(2);
    };
    let octets = match std::fs::read(path) {
        Ok(octets) => octets,
        Err(error) => {
            eprintln!("{path}: {error}");
            return ExitCode::from(4);
        }
    };
    match normalise(&Input::file(&octets, origin)) {
        Ok(zone) => print!("{}", String::from_utf8_lossy(&zone.text)),
        Err(error) => {
            eprintln!("{path}: {error}");
            return ExitCode::from(3);
        }
    }
    ExitCode::SUCCESS
}
