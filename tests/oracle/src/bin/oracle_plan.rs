//! Reads a job line from standard input and prints its plan, as document 01's program `plan` does. What
//! that program says of a job refused with 5 goes to standard error.

use std::io::{self, Read, Write};

use oracle::print;

fn main() -> io::Result<()> {
    let mut input = Vec::new();
    io::stdin().read_to_end(&mut input)?;
    io::stdout().write_all(print::answer(&input).as_bytes())?;
    io::stderr().write_all(print::remark(&input).as_bytes())
}
