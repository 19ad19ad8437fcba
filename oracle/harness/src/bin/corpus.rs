//! `corpus SEED N FILE` writes a corpus; `corpus telling FILE` that of the telling rows; `corpus
//! spoiled SEED FILE` one that no linker replays; `corpus packages SEED N FILE` one of class kind 3; `corpus answers SEED N FILE` stored answers of the
//! other functions; `corpus answers-spoiled SEED FILE` some that no linker gives; `corpus replay FILE`
//! replays either on the model.

use std::fs;
use std::process::ExitCode;

use harness::corpus::{self, answers};
use harness::model::Model;

fn main() -> ExitCode {
    let arguments: Vec<String> = std::env::args().skip(1).collect();
    let arguments: Vec<&str> = arguments.iter().map(String::as_str).collect();
    let result = match arguments.as_slice() {
        ["replay", file] => replay(file),
        ["telling", file] => corpus::telling().and_then(|made| write(0, made, file)).map(|(message, _)| message),
        ["spoiled", seed, file] => match seed.parse() {
            Ok(seed) => write(seed, corpus::spoiled(seed), file).map(|(message, _)| message),
            _ => Err("SEED is a number".to_owned()),
        },
        ["packages", seed, count, file] => match (seed.parse(), count.parse()) {
            (Ok(seed), Ok(count)) => covered(write(seed, corpus::packages(seed, count), file)),
            _ => Err("SEED and N are numbers".to_owned()),
        },
        ["answers", seed, count, file] => match (seed.parse(), count.parse()) {
            (Ok(seed), Ok(count)) => write_answers(seed, answers::make(seed, count), file),
            _ => Err("SEED and N are numbers".to_owned()),
        },
        ["answers-spoiled", seed, file] => match seed.parse() {
            Ok(seed) => write_answers(seed, answers::spoiled(seed), file),
            _ => Err("SEED is a number".to_owned()),
        },
        [seed, count, file] => match (seed.parse(), count.parse()) {
            (Ok(seed), Ok(count)) => covered(write(seed, corpus::make(seed, count), file)),
            _ => Err("SEED and N are numbers".to_owned()),
        },
        _ => Err("usage: corpus SEED N FILE, corpus telling FILE, corpus spoiled SEED FILE, corpus packages SEED N FILE, corpus answers SEED N FILE, \
                  corpus answers-spoiled SEED FILE, or corpus replay FILE"
            .to_owned()),
    };
    match result {
        Ok(message) => {
            println!("{message}");
            ExitCode::SUCCESS
        }
        Err(message) => {
            eprintln!("{message}");
            ExitCode::FAILURE
        }
    }
}

/// An error if a bucket is not covered.
fn covered(written: Result<(String, bool), String>) -> Result<String, String> {
    match written {
        Ok((message, true)) => Ok(message),
        Ok((message, false)) | Err(message) => Err(message),
    }
}

/// Writes stored answers; an error if a bucket is not covered.
fn write_answers(seed: u64, (words, summary): (Vec<u32>, answers::Summary), file: &str) -> Result<String, String> {
    let bytes = save(&words, file)?;
    match summary.missed.as_slice() {
        [] => Ok(format!("{file}: {bytes} bytes, seed {seed}, {} calls, every bucket", summary.calls)),
        missed => Err(format!("{file}: never reached: {}", missed.join(", "))),
    }
}

/// Writes the words; answers the number of bytes.
fn save(words: &[u32], file: &str) -> Result<usize, String> {
    let bytes: Vec<u8> = words.iter().flat_map(|word| word.to_le_bytes()).collect();
    fs::write(file, &bytes).map_err(|error| format!("{file}: {error}"))?;
    Ok(bytes.len())
}

/// Writes a corpus; answers what it holds, and whether it covers every bucket.
fn write(seed: u64, (words, summary): (Vec<u32>, corpus::Summary), file: &str) -> Result<(String, bool), String> {
    let bytes = save(&words, file)?;
    let corpus::Summary { cases, calls, reached, buckets } = summary;
    let message = format!("{file}: {bytes} bytes, seed {seed}, {cases} cases, {calls} calls, {reached} of {buckets} buckets");
    Ok((message, reached == buckets))
}

fn replay(file: &str) -> Result<String, String> {
    let bytes = fs::read(file).map_err(|error| format!("{file}: {error}"))?;
    let words: Vec<u32> = bytes.chunks_exact(4).map(|word| u32::from_le_bytes(word.try_into().unwrap())).collect();
    let calls = corpus::replay(&words, &mut Model)?;
    Ok(format!("{file}: {calls} calls replayed on the model, all as stored"))
}
