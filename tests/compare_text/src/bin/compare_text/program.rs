//! Runs the first reader's program on a file. Which of the programs it then is goes
//! by the name that it is called by.

use compare_text::files::{File, Input};
use std::io::Write;
use std::os::unix::process::CommandExt;
use std::path::Path;
use std::process::{Command, Output, Stdio};
use support::samples::sample_path;

/// What the program writes for the file on its standard input.
pub fn run(program: &Path, name: &str, words: &[&str], file: &File) -> Result<Output, String> {
    let failed = |error: std::io::Error| format!("{}: {error}", program.display());
    let mut command = Command::new(program);
    command.arg0(name).args(words);
    let output = match file.input {
        Input::Pieces(length) => through_pipe(&mut command, &file.bytes, length),
        Input::Sample(name) => {
            let path = sample_path(&format!("{name}.evtx"));
            std::fs::File::open(path).and_then(|log| command.stdin(log).output())
        }
    };
    let output = output.map_err(failed)?;
    match output.status.success() {
        true => Ok(output),
        false => Err(format!("the program ended with {}", output.status)),
    }
}

fn through_pipe(command: &mut Command, bytes: &[u8], piece: usize) -> std::io::Result<Output> {
    command.stdin(Stdio::piped()).stdout(Stdio::piped()).stderr(Stdio::piped());
    let mut child = command.spawn()?;
    let mut input = child.stdin.take().expect("a pipe");
    std::thread::scope(|scope| {
        // A program that stops reading closes the pipe; its lines then tell.
        scope.spawn(move || bytes.chunks(piece).try_for_each(|piece| input.write_all(piece)));
        child.wait_with_output()
    })
}
