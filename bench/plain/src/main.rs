//! Makes inputs, plays them, and times calls.

use plain::held::held;
use plain::made::{commands, made};
use plain::replay::replay;
use plain::shapes::shapes;
use plain::timing::time;
use plain::world::{one_leader, run, script};
use std::hint::black_box;
use std::io::{Read, Write};
use std::process::ExitCode;
use std::{fs, io};

const WORDS: &str = "plain made KIND SEED COUNT >FILE      inputs: commands, all_commands, bodies, modems or nodes
plain plan <FILE >PLAN               a file of commands as a plan
plain replay KIND <FILE >ANSWERS
plain shapes FOLDER                  a file for each kind of work that is timed; their names by lines
plain held FOLDER                    two files for each kind of thing that is held; their names and counts by lines
plain script COUNT >SCRIPT           a script of so many events
plain run COUNT >LINES               what `upsched run` prints of it
plain unrun COUNT                    makes its events and runs none
plain time ROUNDS <SHAPE             how many calls were made, in at most so many rounds, and their nanoseconds
plain before ROUNDS <SHAPE           the same without these calls
";

fn given() -> io::Result<Vec<u8>> {
    let mut file = Vec::new();
    io::stdin().lock().read_to_end(&mut file)?;
    Ok(file)
}

fn write_shapes(folder: &str) -> io::Result<String> {
    let mut names = String::new();
    for (number, shape) in shapes().iter().enumerate() {
        fs::write(format!("{folder}/{number}"), shape.file())?;
        names.push_str(&format!("{number} {}\n", shape.name));
    }
    Ok(names)
}

fn write_held(folder: &str) -> io::Result<String> {
    let mut names = String::new();
    for (number, kind) in held().iter().enumerate() {
        fs::write(format!("{folder}/{number}.many"), kind.many.file())?;
        fs::write(format!("{folder}/{number}.one"), kind.one.file())?;
        names.push_str(&format!("{number} {} {}\n", kind.count, kind.name));
    }
    Ok(names)
}

fn timed(rounds: &str, is_whole: bool) -> Option<String> {
    let (calls, nanos) = time(&given().ok()?, rounds.parse().ok()?, is_whole)?;
    Some(format!("{calls} {nanos}\n"))
}

/// What the words ask for, or none where they aren't understood or what is given isn't.
fn answer(words: &[&str]) -> Option<Vec<u8>> {
    match words {
        ["made", kind, seed, count] => made(kind, seed.parse().ok()?, count.parse().ok()?),
        ["plan"] => Some(commands::plan(&given().ok()?).into_bytes()),
        ["replay", kind] => Some(replay(kind, &given().ok()?)?.into_bytes()),
        ["shapes", folder] => Some(write_shapes(folder).ok()?.into_bytes()),
        ["held", folder] => Some(write_held(folder).ok()?.into_bytes()),
        ["script", count] => Some(script(&one_leader(count.parse().ok()?)).into_bytes()),
        ["run", count] => Some(run(&one_leader(count.parse().ok()?)).into_bytes()),
        ["unrun", count] => {
            black_box(one_leader(count.parse().ok()?));
            Some(Vec::new())
        }
        ["time", rounds] => Some(timed(rounds, true)?.into_bytes()),
        ["before", rounds] => Some(timed(rounds, false)?.into_bytes()),
        _ => None,
    }
}

fn main() -> ExitCode {
    let words: Vec<String> = std::env::args().skip(1).collect();
    let words: Vec<&str> = words.iter().map(String::as_str).collect();
    match answer(&words) {
        Some(bytes) if io::stdout().write_all(&bytes).is_ok() => ExitCode::SUCCESS,
        Some(_) => ExitCode::from(1),
        None => {
            eprint!("{WORDS}");
            ExitCode::from(2)
        }
    }
}
