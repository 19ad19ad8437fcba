//! `listings SEED COUNT FOLDER`: COUNT folders of sheets, FOLDER/0001 and on, each with its listing by the original.

use std::path::Path;
use std::process::ExitCode;
use std::{fs, io};

use harness::listings::{Counts, folder};
use harness::oracle::Oracle;

fn main() -> ExitCode {
    let arguments: Vec<String> = std::env::args().skip(1).collect();
    let Some((seed, count, top)) = parsed(&arguments) else {
        eprintln!("usage: listings SEED COUNT FOLDER");
        return ExitCode::from(2);
    };
    match make(seed, count, top) {
        Ok(true) => ExitCode::SUCCESS,
        Ok(false) => ExitCode::FAILURE,
        Err(error) => {
            eprintln!("{}: {error}", top.display());
            ExitCode::FAILURE
        }
    }
}

fn parsed(arguments: &[String]) -> Option<(u64, usize, &Path)> {
    let [seed, count, top] = arguments else { return None };
    Some((seed.parse().ok()?, count.parse().ok()?, Path::new(top)))
}

/// Makes the folders and prints what they reach. True if every bucket is reached.
fn make(seed: u64, count: usize, top: &Path) -> io::Result<bool> {
    let (mut oracle, mut counts) = (Oracle::default(), Counts::default());
    let folders = (0..).filter_map(|case| folder(&mut oracle, seed, case, &mut counts)).take(count);
    for (made, number) in folders.zip(1..) {
        let folder = top.join(format!("{number:04}"));
        fs::create_dir_all(&folder)?;
        fs::write(folder.join("abi.bin"), made.abi)?;
        fs::write(folder.join("classes.bin"), made.classes)?;
        fs::write(folder.join("listing.txt"), made.listing)?;
    }
    let (summary, all_reached) = counts.summary();
    println!("{summary}\nseed {seed}: {count} folders in {}", top.display());
    Ok(all_reached)
}
