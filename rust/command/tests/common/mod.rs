//! Runs the command as a user would.

use std::io::Write;
use std::path::PathBuf;
use std::process::{Command, Output, Stdio};

pub struct Run {
    pub status: i32,
    pub out: String,
    pub err: String,
}

/// Runs `yay` with words and standard input.
pub fn yay(words: &[&str], input: &[u8]) -> Run {
    let output = output(words, input);
    let text = |bytes: Vec<u8>| String::from_utf8(bytes).expect("UTF-8");
    Run { status: output.status.code().expect("no signal"), out: text(output.stdout), err: text(output.stderr) }
}

/// What `yay` writes to standard output.
#[allow(dead_code)]
pub fn yay_bytes(words: &[&str], input: &[u8]) -> Vec<u8> {
    output(words, input).stdout
}

fn output(words: &[&str], input: &[u8]) -> Output {
    let mut command = Command::new(env!("CARGO_BIN_EXE_yay"));
    command.args(words).stdin(Stdio::piped()).stdout(Stdio::piped()).stderr(Stdio::piped());
    let mut child = command.spawn().expect("yay starts");
    let (mut pipe, input) = (child.stdin.take().expect("piped"), input.to_vec());
    // Beside the reading of answers, so that neither waits for the other; a command may end without reading it.
    let writer = std::thread::spawn(move || pipe.write_all(&input));
    let output = child.wait_with_output().expect("yay ends");
    let _ = writer.join().expect("written");
    output
}

/// The exit status with standard output closed before anything is written there; one of the files is `-`.
#[allow(dead_code)]
pub fn status_unread(words: &[&str], input: &[u8]) -> i32 {
    let mut command = Command::new(env!("CARGO_BIN_EXE_yay"));
    command.args(words).stdin(Stdio::piped()).stdout(Stdio::piped()).stderr(Stdio::null());
    let mut child = command.spawn().expect("yay starts");
    drop(child.stdout.take());
    // The command waits for this, so that the pipe is closed before its first word.
    child.stdin.take().expect("piped").write_all(input).expect("taken");
    child.wait().expect("yay ends").code().expect("no signal")
}

/// A file of the repository.
#[allow(dead_code)]
pub fn example(name: &str) -> String {
    format!("{}/../../examples/{name}", env!("CARGO_MANIFEST_DIR"))
}

/// A file with these bytes, gone when dropped.
pub struct Temporary(pub PathBuf);

impl Temporary {
    #[allow(dead_code)]
    pub fn new(name: &str, bytes: &[u8]) -> Temporary {
        let path = std::env::temp_dir().join(format!("yay-test-{}-{name}", std::process::id()));
        std::fs::write(&path, bytes).expect("written");
        Temporary(path)
    }

    #[allow(dead_code)]
    pub fn name(&self) -> &str {
        self.0.to_str().expect("UTF-8")
    }
}

impl Drop for Temporary {
    fn drop(&mut self) {
        let _ = std::fs::remove_file(&self.0);
    }
}
