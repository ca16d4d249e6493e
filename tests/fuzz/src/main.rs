//! Makes the calls that inputs ask for, without a fuzzer: those that it begins
//! with, or one that it kept because the readers differ on it.
//!
//! `fuzz --seeds FOLDER` writes the inputs to begin with into the folder;
//! `fuzz PATH..` compares both readers on each file, and on each file of a folder.

use fuzz::{one_input, seeds};
use std::io::Result;
use std::path::{Path, PathBuf};
use std::process::ExitCode;
use support::tally::Tally;

fn write_seeds(folder: &Path) -> Result<()> {
    std::fs::create_dir_all(folder)?;
    for (number, seed) in seeds::all().iter().enumerate() {
        std::fs::write(folder.join(format!("{number:05}")), seed)?;
    }
    Ok(())
}

/// The files of a path, in the order of their names.
fn files(path: &Path) -> Result<Vec<PathBuf>> {
    if !path.is_dir() {
        return Ok(vec![path.to_path_buf()]);
    }
    let entries = std::fs::read_dir(path)?.map(|entry| entry.map(|entry| entry.path()));
    let mut files = entries.collect::<Result<Vec<PathBuf>>>()?;
    files.sort();
    Ok(files)
}

/// Whether the readers agree on the file.
fn agree(path: &Path, tally: &mut Tally) -> Result<bool> {
    let Err(difference) = one_input(&std::fs::read(path)?, tally) else { return Ok(true) };
    println!("{difference}\ninput: {}", path.display());
    Ok(false)
}

/// Compares the readers on all files. Answers whether there were some, and none differs.
fn compare(paths: &[String]) -> Result<bool> {
    let mut tally = Tally::default();
    let (mut inputs, mut differ) = (0, 0);
    let folders: Result<Vec<Vec<PathBuf>>> =
        paths.iter().map(|path| files(Path::new(path))).collect();
    for path in folders?.concat() {
        differ += u64::from(!agree(&path, &mut tally)?);
        inputs += 1;
    }
    print!("{tally}");
    println!("fuzz: {inputs} inputs, {differ} differ");
    Ok(inputs > 0 && differ == 0)
}

fn main() -> ExitCode {
    let arguments: Vec<String> = std::env::args().skip(1).collect();
    let outcome = match arguments.as_slice() {
        [option, folder] if option == "--seeds" => write_seeds(Path::new(folder)).map(|()| true),
        paths => compare(paths),
    };
    match outcome {
        Ok(true) => ExitCode::SUCCESS,
        Ok(false) => ExitCode::FAILURE,
        Err(error) => {
            println!("fuzz: {error}");
            ExitCode::FAILURE
        }
    }
}
