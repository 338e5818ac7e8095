//! Test vectors.
//!
//! `vectors turbo`, `interleaver`, `points` or `scrambler` prints text. `vectors entries DIR`
//! writes the files entries.bin and entries.txt, and `vectors show FILE` prints such a file of
//! records, a line for each.

mod entries;
mod labelled;
mod record;
mod text;

use std::fs;
use std::io::{self, BufWriter, Write};
use std::path::Path;
use std::process::ExitCode;

const USAGE: &str = "usage: vectors turbo|interleaver|points|scrambler
       vectors entries DIR
       vectors show FILE";

/// Writes entries.bin and entries.txt into a folder, and says how much there is.
fn write_entries(folder: &str, out: &mut impl Write) -> io::Result<()> {
    let records = entries::records();
    let bytes = record::to_bytes(&records);
    let folder = Path::new(folder);
    let file = folder.join("entries.bin");
    fs::create_dir_all(folder)?;
    fs::write(&file, &bytes)?;
    fs::write(folder.join("entries.txt"), record::printed(&records))?;
    let (name, count) = (file.display(), records.len());
    writeln!(out, "{name}: {count} records, {} bytes", bytes.len())
}

/// Prints a file of records.
fn show(file: &str, out: &mut impl Write) -> io::Result<()> {
    let bytes = fs::read(file)?;
    let Some(records) = record::from_bytes(&bytes) else {
        return Err(io::Error::other(format!("{file} is no file of records")));
    };
    for (n, record) in records.iter().enumerate() {
        writeln!(out, "{n} {record}")?;
    }
    Ok(())
}

fn main() -> ExitCode {
    let mut out = BufWriter::new(io::stdout().lock());
    let arguments: Vec<String> = std::env::args().skip(1).collect();
    let arguments: Vec<&str> = arguments.iter().map(String::as_str).collect();
    let printed = match arguments[..] {
        ["turbo"] => text::print_turbo(&mut out),
        ["interleaver"] => text::print_interleaver(&mut out),
        ["points"] => text::print_points(&mut out),
        ["scrambler"] => text::print_scrambler(&mut out),
        ["entries", folder] => write_entries(folder, &mut out),
        ["show", file] => show(file, &mut out),
        _ => {
            eprintln!("{USAGE}");
            return ExitCode::from(2);
        }
    };
    match printed.and_then(|()| out.flush()) {
        Ok(()) => ExitCode::SUCCESS,
        Err(error) => {
            eprintln!("vectors: {error}");
            ExitCode::FAILURE
        }
    }
}
