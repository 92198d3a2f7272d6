//! Runs the programs `holes` and `parts` on good and damaged input and compares their whole output with the model's.

use crate::compare::files::random_file;
use crate::compare::lists::random_list;
use crate::compare::tables::random_room;
use crate::examples;
use crate::model::lists::{self, LONGEST_TEXT};
use crate::model::sketch::{printed, CONTENTS};
use crate::model::table::MOST;
use crate::random::Random;
use std::collections::BTreeMap;
use std::io::Write;
use std::process::{Command, Stdio};
use std::time::Duration;

/// Runs `holes` on the examples, some short inputs and random files; answers whether all outputs were the same.
pub fn holes(path: &str, seed: u64, files: usize) -> Result<bool, String> {
    let mut first: Vec<Vec<u8>> = examples::all().into_iter().map(|(_, bytes)| bytes).collect();
    first.extend([vec![], vec![2], vec![2, 0], vec![0; CONTENTS], vec![255; CONTENTS]]);
    first.extend(examples::longest());
    run(path, seed, files, first, random_file, |bytes| printed(bytes).into_bytes())
}

/// Runs `parts` on some short and long texts and random lists; answers whether all outputs were the same.
pub fn parts(path: &str, seed: u64, files: usize) -> Result<bool, String> {
    let texts =
        ["", "\n", "0\n", "0\n0\n", "512\n", "513\n", "7\n0 1 2 3 4 5 6\n", "70000\n69999 70000\n", "600\n5 x\n"];
    let mut first: Vec<Vec<u8>> = texts.iter().map(|text| text.as_bytes().to_vec()).collect();
    // Just as long as the program takes, good to the end or with a fault there; then longer by one byte, and by far.
    for (count, end) in [("9\n", "8\n"), ("9\n", "9\n"), ("9\n", "x\n"), ("9\n", "1"), ("10\n", "1\n")] {
        first.push([count, &"0\n".repeat(LONGEST_TEXT / 2 - 2), end].concat().into_bytes());
    }
    first.push(["8\n", &"0 1 2 3 4 5 6\n".repeat(LONGEST_TEXT)].concat().into_bytes());
    run(path, seed, files, first, random_list, lists::parts)
}

/// Runs a program on the given inputs, then on random ones, and compares its whole output with the model's.
fn run(
    path: &str,
    seed: u64,
    files: usize,
    first: Vec<Vec<u8>>,
    other: fn(&mut Random, usize) -> Vec<u8>,
    model: fn(&[u8]) -> Vec<u8>,
) -> Result<bool, String> {
    println!("seed {seed}, {files} files");
    let random = &mut Random::new(seed);
    let mut first = first.into_iter();
    let mut met: BTreeMap<String, usize> = BTreeMap::new();
    for place in 0..files {
        let room = random_room(random, MOST);
        let bytes = first.next().unwrap_or_else(|| other(random, room));
        let in_pieces = place % 200 == 0;
        let found = output(path, &bytes, in_pieces, random).map_err(|fault| fault.to_string())?;
        let wanted = model(&bytes);
        if found != wanted {
            println!("input {place} differs, {} bytes: {}", bytes.len(), bytes.escape_ascii());
            println!("model prints:\n{}\nprogram prints:\n{}", wanted.escape_ascii(), found.escape_ascii());
            return Ok(false);
        }
        let refused = wanted.starts_with(b"refused");
        let kind =
            if refused { String::from_utf8_lossy(wanted.trim_ascii_end()).into() } else { "accepted".to_string() };
        *met.entry(kind).or_default() += 1;
    }
    for (kind, count) in met {
        println!("{kind}: {count}");
    }
    println!("all outputs are the same");
    Ok(true)
}

/// The program's standard output for these bytes on its standard input.
fn output(program: &str, bytes: &[u8], in_pieces: bool, random: &mut Random) -> std::io::Result<Vec<u8>> {
    let mut child = Command::new(program).stdin(Stdio::piped()).stdout(Stdio::piped()).spawn()?;
    let mut input = child.stdin.take().expect("a pipe");
    let mut rest = bytes;
    while !rest.is_empty() {
        let length = if in_pieces { random.between(1, 1 + rest.len() / 4).min(rest.len()) } else { rest.len() };
        // The program may stop reading a file that is too long: a closed pipe is no fault.
        if input.write_all(&rest[..length]).and_then(|()| input.flush()).is_err() {
            break;
        }
        rest = &rest[length..];
        if in_pieces {
            std::thread::sleep(Duration::from_millis(3));
        }
    }
    drop(input);
    let output = child.wait_with_output()?;
    if output.status.code().is_none() {
        return Err(std::io::Error::other("the program was ended by a signal"));
    }
    Ok(output.stdout)
}
