//! references WORDS BITMAP: the instance words that hold references, of so many words by a bitmap of hexadecimal bytes, each named as the
//! emulator names the field that it makes for it (`JavaReferenceField`). Status: 0, 1 the bitmap is refused, 2 a wrong command.

use std::process::ExitCode;

use lgt_linker::reference_words;

/// The bytes of an even number of hexadecimal digits.
fn bytes(digits: &str) -> Option<Vec<u8>> {
    let digits: Option<Vec<u32>> = digits.chars().map(|digit| digit.to_digit(16)).collect();
    let digits = digits.filter(|digits| digits.len() % 2 == 0)?;
    Some(digits.chunks(2).map(|pair| (16 * pair[0] + pair[1]) as u8).collect())
}

/// How many words, and the bitmap.
fn command() -> Option<(u32, Vec<u8>)> {
    let given: Vec<String> = std::env::args().skip(1).collect();
    let [words, bitmap] = &given[..] else { return None };
    Some((words.parse().ok()?, bytes(bitmap)?))
}

fn main() -> ExitCode {
    let Some((words, bitmap)) = command() else {
        eprintln!("references WORDS BITMAP, as in: references 8 A1");
        return ExitCode::from(2);
    };
    match reference_words(&bitmap, words) {
        Ok(list) => {
            list.iter().for_each(|word| println!("<reference-word-{word}>"));
            ExitCode::SUCCESS
        }
        Err(refusal) => {
            eprintln!("{refusal}. {}", refusal.mend());
            ExitCode::FAILURE
        }
    }
}
