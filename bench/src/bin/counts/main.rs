//! Prints how many instructions whole runs and calls on a function table take, beside
//! a plain program and BuDDy.

#[path = "../../buddy.rs"]
#[expect(dead_code, reason = "only the program that times compares results")]
mod buddy;
mod child;
mod valgrind;

use bench::cells::{self, Named};
use bench::table::{operations, NUMBERS, PAIRED};
use child::{CHECK, NOTHING, RUN};
use comparison::cell_file::{parse, Layout};
use comparison::random::Random;
use comparison::simulator::calls::WORKING;
use std::path::Path;
use std::process::ExitCode;
use valgrind::{beyond, Error, CHILD};

fn millions(instructions: u64) -> f64 {
    instructions as f64 / 1e6
}

fn thousands(instructions: u64) -> f64 {
    instructions as f64 / 1e3
}

/// One line: the plain program, and the tool with a long and a short working table.
fn line(Named { name, cell }: &Named) -> Result<(), Error> {
    let file = Layout::in_order(cell).file;
    let plain = beyond("plain", RUN, NOTHING, &file)?.instructions;
    print!("{name:<34} {:>7}", cell.letters);
    print!(" {:>8.2}", millions(plain));
    for working in [*WORKING.end(), *WORKING.start()] {
        let tool = beyond(&format!("tool {working}"), RUN, NOTHING, &file)?;
        let ratio = match tool.said.as_str() {
            "0" => format!("{:.3}", tool.instructions as f64 / plain as f64),
            number => format!("refused {number}"),
        };
        print!(" {:>9.2} {ratio:>10}", millions(tool.instructions));
    }
    println!();
    Ok(())
}

fn runs(cells: &[Named]) -> Result<(), Error> {
    println!("Millions of instructions of whole runs, with working of 65,536 and of 4,096 entries");
    println!(
        "{:<34} {:>7} {:>8} {:>9} {:>10} {:>9} {:>10}",
        "cell", "letters", "plain", "tool", "ratio", "4,096", "ratio"
    );
    cells.iter().try_for_each(line)
}

/// Operations on a table of two functions and a selector.
fn calls() -> Result<(), Error> {
    println!(
        "Thousands of instructions of a call: the check of its table, and what is left beyond it"
    );
    for (what, most) in NUMBERS {
        let ready = format!("table {most}");
        let (lent, operations) = operations(&mut Random::new(1), most);
        let check = beyond(&ready, CHECK, NOTHING, &[])?;
        print!("{what}, {} entries: check", lent.used);
        print!(" {:.1}", thousands(check.instructions));
        for (name, _) in operations {
            let call = beyond(&ready, name, CHECK, &[])?;
            print!(", {name} {:.1}", thousands(call.instructions));
        }
        println!();
    }
    Ok(())
}

/// "And" and "or" of pairs of functions, the means over all pairs.
fn beside_buddy() -> Result<(), Error> {
    println!("Thousands of instructions of \"and\" and \"or\" beyond the check, and BuDDy's");
    for (functions, length) in PAIRED {
        print!("{functions:>2} functions in a table of {length}");
        for name in [child::AND, child::OR] {
            let mean = |engine: &str, less| {
                let ready = format!("{engine} {functions} {length}");
                let all = beyond(&ready, name, less, &[])?.instructions;
                Ok(thousands(all) / functions as f64)
            };
            let (ours, theirs) = (mean("pairs", CHECK)?, mean("buddy", NOTHING)?);
            print!(
                ", {name} {ours:.1}, {theirs:.1}, ratio {:.2}",
                ours / theirs
            );
        }
        println!();
    }
    Ok(())
}

/// The cell of a file.
fn read(name: &String) -> Result<Named, Error> {
    let file = std::fs::read(name).map_err(|error| Error(format!("{name}: {error}")))?;
    let cell = parse(&file).map_err(|refusal| Error(format!("{name}: refused {refusal:?}")))?;
    let name = Path::new(name).file_stem().unwrap_or_default();
    Ok(Named {
        name: name.to_string_lossy().into_owned(),
        cell,
    })
}

/// Counts the files that are named, or else all that is drawn here.
fn counts(files: &[String]) -> Result<(), Error> {
    if !files.is_empty() {
        let cells: Result<Vec<Named>, Error> = files.iter().map(read).collect();
        return runs(&cells?);
    }
    calls()?;
    beside_buddy()?;
    runs(&cells::all())
}

fn main() -> ExitCode {
    let words: Vec<String> = std::env::args().skip(1).collect();
    let done = match words.as_slice() {
        [child, ready, work] if child == CHILD => child::run(ready, work),
        files => counts(files),
    };
    match done {
        Ok(()) => ExitCode::SUCCESS,
        Err(Error(what)) => {
            eprintln!("counts: {what}");
            ExitCode::FAILURE
        }
    }
}
