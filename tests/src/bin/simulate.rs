//! The programs `waves` and `vectors` by the second implementation.
//!
//! Without arguments it prints the listing of the cell file on standard input, as
//! `waves` does. With arguments it prints what `vectors` prints for them: table
//! lengths, and names of cell files.

use comparison::waves;
use std::env;
use std::fs;
use std::io::{self, Read, Write};

fn main() -> io::Result<()> {
    let arguments: Vec<String> = env::args().skip(1).collect();
    let text = match arguments.is_empty() {
        true => {
            let mut file = Vec::new();
            io::stdin().read_to_end(&mut file)?;
            waves::of_file(&file)
        }
        false => {
            let arguments = arguments.iter().map(String::as_str);
            waves::of_names(arguments, |name| fs::read(name).ok())
        }
    };
    io::stdout().write_all(text.as_bytes())
}
