//! The independent second program of Bumbleturf: a model of every call, written from the request alone, against which the
//! compiled kernel is compared.

// Where the library is not linked, parts of the comparison serve the tests alone.
#[cfg_attr(not(library), allow(dead_code))]
mod call;
mod cases;
#[cfg_attr(not(library), allow(dead_code))]
mod compare;
mod examples;
#[cfg(library)]
mod library;
#[cfg_attr(not(library), allow(dead_code))]
mod model;
mod program;
mod random;
#[cfg(test)]
mod tests;

use std::io::{Read, Write};
use std::path::Path;
use std::process::ExitCode;

const USAGE: &str = "\
second holes < FILE                     prints what the program holes prints
second parts < LIST                     prints what the program parts prints
second cases                            checks the cases whose answers the request gives
second sketches DIR                     writes example sketch files
second program PATH [--seed S] [--files N]   runs the program holes on random files
second lists PATH [--seed S] [--files N]     runs the program parts on random lists
second compare [--seed S] [--calls N] [--trace]   compares the linked library with the model
second compare --run S [--most N]       repeats one run of a comparison";

const SEED: u64 = 20_000_801;

/// The number after an option, or the given one where the option is missing.
fn option(arguments: &[String], name: &str, default: u64) -> Result<u64, String> {
    let Some(place) = arguments.iter().position(|argument| argument == name) else {
        return Ok(default);
    };
    let number = arguments.get(place + 1).and_then(|text| text.parse().ok());
    number.ok_or(format!("{name} needs a number"))
}

/// Answers standard input with what a program prints for it.
fn print(printed: fn(&[u8]) -> Vec<u8>) -> Result<bool, String> {
    let mut input = vec![];
    std::io::stdin().read_to_end(&mut input).map_err(|fault| fault.to_string())?;
    std::io::stdout().write_all(&printed(&input)).map_err(|fault| fault.to_string())?;
    Ok(true)
}

#[cfg(library)]
fn runs() -> Vec<(&'static str, call::Run)> {
    vec![("model", call::by_model), ("library", library::by_library)]
}

#[cfg(not(library))]
fn runs() -> Vec<(&'static str, call::Run)> {
    vec![("model", call::by_model)]
}

#[cfg(library)]
fn compare(arguments: &[String]) -> Result<bool, String> {
    let seed = option(arguments, "--seed", SEED)?;
    let calls = option(arguments, "--calls", 200_000)? as usize;
    let most = option(arguments, "--most", 512)? as usize;
    let mut comparison = compare::runs::Comparison::new(library::by_library, calls);
    if arguments.iter().any(|argument| argument == "--run") {
        comparison.one_run(option(arguments, "--run", 0)?, most)?;
        println!("no difference in {} calls", comparison.made);
        return Ok(true);
    }
    println!("seed {seed}, {calls} calls");
    comparison.all_runs(seed, arguments.iter().any(|argument| argument == "--trace"))?;
    compare::damages::all(&mut comparison)?;
    compare::lists::million(&mut comparison)?;
    let all_met = comparison.tally.print();
    println!("no difference in {} calls", comparison.made);
    if !all_met {
        return Err("an answer of a call was never met".to_string());
    }
    Ok(true)
}

#[cfg(not(library))]
fn compare(_: &[String]) -> Result<bool, String> {
    Err("built without the library: set BUMBLETURF_LIB to the folder of libkernel.a and build again".to_string())
}

fn main() -> ExitCode {
    let arguments: Vec<String> = std::env::args().skip(1).collect();
    let words: Vec<&str> = arguments.iter().map(String::as_str).collect();
    let done = match words.as_slice() {
        ["holes"] => print(|input| model::sketch::printed(input).into_bytes()),
        ["parts"] => print(model::lists::parts),
        ["cases"] => Ok(cases::all(&runs())),
        ["sketches", folder] => examples::write(Path::new(folder)).map(|()| true).map_err(|fault| fault.to_string()),
        [name @ ("program" | "lists"), path, ..] => option(&arguments, "--seed", SEED).and_then(|seed| {
            let files = option(&arguments, "--files", 2_000)? as usize;
            let run = if *name == "program" { program::holes } else { program::parts };
            run(path, seed, files)
        }),
        ["compare", ..] => compare(&arguments),
        _ => Err(USAGE.to_string()),
    };
    match done {
        Ok(true) => ExitCode::SUCCESS,
        Ok(false) => ExitCode::FAILURE,
        Err(fault) => {
            eprintln!("{fault}");
            ExitCode::FAILURE
        }
    }
}
