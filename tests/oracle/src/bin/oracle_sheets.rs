//! Reads a job line from standard input and prints the slab sheets of one dimension of its plan, as the
//! program `slab_sheets` does.
//!
//!     oracle-sheets DIMENSION CAPTION

use std::env;
use std::io::{self, Read, Write};
use std::os::unix::ffi::OsStrExt;
use std::process::ExitCode;

use oracle::{sheet, sheet_cases};

fn main() -> io::Result<ExitCode> {
    let arguments: Vec<_> = env::args_os().skip(1).collect();
    let [dimension, caption] = &arguments[..] else {
        eprintln!("usage: oracle-sheets DIMENSION CAPTION");
        return Ok(ExitCode::from(64));
    };
    let dimension = sheet_cases::dimension_of(&dimension.to_string_lossy());
    let mut input = Vec::new();
    io::stdin().read_to_end(&mut input)?;
    let pages = sheet::answer(&input, dimension, caption.as_bytes());
    io::stdout().write_all(pages.as_bytes())?;
    Ok(ExitCode::SUCCESS)
}
