//! Keeps the state of a node's secret in a system of many runs, and takes the seeds of its sets of keys, each once ever.
//!
//!     keep make STATE MARK SYSTEM        makes the state of set 0 of 32 secret bytes on standard input, and its mark
//!     keep take STATE MARK SYSTEM SET    takes the seed of a set, and prints the root of its keys for version 2
//!     keep catch-up STATE MARK SYSTEM    brings a state to its mark, and prints its set
//!
//! STATE is a file, and MARK one of another disk or machine. SYSTEM is the id of the system, 64 hexadecimal digits. A node
//! makes its keys of the seed in the process that has taken it: `Keys` serve the four runs of the set.
use std::error::Error;
use std::io::Read;
use std::process::ExitCode;
use vamuretu::{KeptState, Root, Secret, SystemId, Version};

/// The bytes of 64 hexadecimal digits.
fn system_of(digits: &str) -> Option<SystemId> {
    let byte = |at: usize| u8::from_str_radix(digits.get(at..at + 2)?, 16).ok();
    let bytes: Vec<u8> = (0..digits.len()).step_by(2).map(byte).collect::<Option<_>>()?;
    bytes.try_into().ok()
}

/// The secret on standard input.
fn read_secret() -> Result<Secret, Box<dyn Error>> {
    let mut bytes = Vec::new();
    std::io::stdin().lock().read_to_end(&mut bytes)?;
    Ok(Secret(bytes.try_into().map_err(|_| "the secret has not 32 bytes")?))
}

/// Does what the words ask for.
fn keep(words: &[&str]) -> Result<(), Box<dyn Error>> {
    let kept = |state: &str, mark: &str, system| -> Result<KeptState, Box<dyn Error>> {
        Ok(KeptState::new(state, mark, system_of(system).ok_or("SYSTEM has not 64 hexadecimal digits")?))
    };
    match *words {
        ["make", state, mark, system] => kept(state, mark, system)?.make(&read_secret()?)?,
        ["take", state, mark, system, set] => {
            let root = Root::of(&kept(state, mark, system)?.take(set.parse()?)?, Version::Two)?;
            println!("{}", root.0.iter().map(|byte| format!("{byte:02x}")).collect::<String>());
        }
        ["catch-up", state, mark, system] => println!("{}", kept(state, mark, system)?.catch_up()?),
        _ => return Err("keep make|take|catch-up STATE MARK SYSTEM [SET]".into()),
    }
    Ok(())
}

fn main() -> ExitCode {
    let words: Vec<String> = std::env::args().skip(1).collect();
    match keep(&words.iter().map(String::as_str).collect::<Vec<_>>()) {
        Ok(()) => ExitCode::SUCCESS,
        Err(told) => {
            eprintln!("{told}");
            ExitCode::FAILURE
        }
    }
}
