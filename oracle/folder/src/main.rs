//! folder list FOLDER: the listing of FOLDER/abi.bin and FOLDER/classes.bin, by the model.
//! folder why FOLDER: each refusal of the same links, and of the interface tables after them, in a sentence.
//! folder missing FOLDER: the slots of each class that the same links leave without a real method.
//! folder members FILE FIRST STEP: the class of a class file in the text form of tools/sheet, with these targets; why it is refused goes to
//! standard error.
//! Status: 0 all linked, 1 something is refused, 2 a wrong command, 3 a file cannot be read, 4 the output cannot be written.

use std::fs::File;
use std::io::{self, Read, Write};
use std::path::Path;
use std::process::ExitCode;

use folder::{Told, listing, members, missing, reasons};

/// A byte more than the largest sheet: what is longer is refused by row 1 all the same.
const MOST_BYTES: u64 = 92 * 512 + 1;

/// The bytes of the largest class file that is read, by the proved program as by this one.
const MOST_FILE_BYTES: usize = 1 << 20;

const USAGE: &str = "usage: folder list FOLDER, folder why FOLDER, folder missing FOLDER, or folder members FILE FIRST STEP";

fn main() -> ExitCode {
    let words: Vec<String> = std::env::args().skip(1).collect();
    if let [command, file, first, step] = words.as_slice()
        && command == "members"
    {
        return match (first.parse(), step.parse()) {
            (Ok(first), Ok(step)) => print_members(Path::new(file), first, step),
            _ => failed(2, USAGE),
        };
    }
    let told: fn(&[u8], &[u8]) -> Told = match words.first().map(String::as_str) {
        Some("list") if words.len() == 2 => listing,
        Some("why") if words.len() == 2 => reasons,
        Some("missing") if words.len() == 2 => missing,
        _ => return failed(2, USAGE),
    };
    let folder = Path::new(&words[1]);
    let (abi, classes) = match (read(folder, "abi.bin"), read(folder, "classes.bin")) {
        (Ok(abi), Ok(classes)) => (abi, classes),
        (Err(message), _) | (_, Err(message)) => return failed(3, &message),
    };
    print(&told(&abi, &classes))
}

fn print(told: &Told) -> ExitCode {
    let mut output = io::stdout().lock();
    match output.write_all(told.text.as_bytes()).and_then(|()| output.flush()) {
        Err(error) if error.kind() == io::ErrorKind::BrokenPipe => ExitCode::from(4),
        Err(error) => failed(4, &format!("the output could not be written: {error}")),
        Ok(()) => ExitCode::from(u8::from(told.refused)),
    }
}

fn print_members(path: &Path, first: u32, step: u32) -> ExitCode {
    let bytes = match std::fs::read(path) {
        Ok(bytes) => bytes,
        Err(error) => return failed(3, &format!("{}: {error}", path.display())),
    };
    if bytes.len() > MOST_FILE_BYTES {
        return failed(3, &format!("{}: more than {MOST_FILE_BYTES} bytes", path.display()));
    }
    match members(&bytes, first, step) {
        Ok(text) => print(&Told { text, refused: false }),
        Err(refused) => {
            eprintln!("members: {}: {}", path.display(), refused.why);
            print(&Told { text: format!("refused {}\n", refused.row), refused: true })
        }
    }
}

fn failed(status: u8, message: &str) -> ExitCode {
    eprintln!("folder: {message}");
    ExitCode::from(status)
}

fn read(folder: &Path, name: &str) -> Result<Vec<u8>, String> {
    let path = folder.join(name);
    let told = |error: io::Error| format!("{}: {error}", path.display());
    let mut bytes = Vec::new();
    File::open(&path).map_err(told)?.take(MOST_BYTES).read_to_end(&mut bytes).map_err(told)?;
    Ok(bytes)
}
