//! A program run on one input: fed on standard input, its output captured.

use std::env;
use std::ffi::OsString;
use std::fs::{self, File};
use std::io::{self, Read, Write};
use std::os::fd::OwnedFd;
use std::os::unix::net::UnixStream;
use std::path::{Path, PathBuf};
use std::process::{self, Child, ExitStatus, Stdio};
use std::sync::atomic::{AtomicU64, Ordering};
use std::sync::mpsc;
use std::thread;
use std::time::Duration;

use reference::pages::sizes_text;

/// A program and the first of its arguments.
#[derive(Clone, Debug, PartialEq, Eq)]
pub struct Command {
    /// Where it is.
    pub path: PathBuf,
    /// What it is always given.
    pub arguments: Vec<OsString>,
}

/// How long a program may take for one input.
const PATIENCE: Duration = Duration::from_secs(30);

/// What the program prints for the input. An error says in words why there is
/// no such thing: it does not start, is ended by a signal or takes too long.
/// The exit status of a program that ends by itself is not looked at, since
/// R41 gives none.
pub fn output(program: &Command, input: &[u8]) -> Result<String, String> {
    let mut child = started(program, None, Stdio::piped())?;
    let stdin = child.stdin.take().expect("standard input is piped");
    printed(&mut child, stdin, input)
}

/// The same for the page form: the last argument is a file with the sizes of the
/// parts, which is gone afterwards.
pub fn output_in_parts(program: &Command, input: &[u8], sizes: &[usize]) -> Result<String, String> {
    let file = SizesFile::with(sizes).map_err(|error| format!("no file for sizes: {error}"))?;
    let mut child = started(program, Some(&file.path), Stdio::piped())?;
    let stdin = child.stdin.take().expect("standard input is piped");
    printed(&mut child, stdin, input)
}

/// A file of sizes of parts, there for as long as this is.
struct SizesFile {
    path: PathBuf,
}

impl SizesFile {
    /// A new one with these sizes.
    fn with(sizes: &[usize]) -> io::Result<SizesFile> {
        static COUNT: AtomicU64 = AtomicU64::new(0);
        let count = COUNT.fetch_add(1, Ordering::Relaxed);
        let name = format!("compare-{}-{count}.parts", process::id());
        let path = env::temp_dir().join(name);
        let mut file = File::create_new(&path)?;
        let sizes_file = SizesFile { path };
        file.write_all(sizes_text(sizes).as_bytes())?;
        Ok(sizes_file)
    }
}

impl Drop for SizesFile {
    fn drop(&mut self) {
        drop(fs::remove_file(&self.path));
    }
}

/// The same where reading fails behind the input's bytes: a socket holds them
/// all, its other end stays open, and a read does not wait for more.
pub fn output_unread(program: &Command, input: &[u8]) -> Result<String, String> {
    let (mut ours, theirs) = UnixStream::pair().map_err(|error| error.to_string())?;
    let filled = ours
        .set_nonblocking(true)
        .and(theirs.set_nonblocking(true))
        .and(ours.write_all(input));
    filled.map_err(|error| format!("a socket does not hold the input: {error}"))?;
    let mut child = started(program, None, Stdio::from(OwnedFd::from(theirs)))?;
    let output = printed(&mut child, std::io::sink(), &[]);
    drop(ours);
    output
}

/// The program, started on this standard input, with this last argument.
fn started(program: &Command, last: Option<&Path>, stdin: Stdio) -> Result<Child, String> {
    let child = process::Command::new(&program.path)
        .args(&program.arguments)
        .args(last)
        .stdin(stdin)
        .stdout(Stdio::piped())
        .stderr(Stdio::null())
        .spawn();
    child.map_err(|error| format!("{}: {error}", program.path.display()))
}

/// What the program prints while the input is written.
fn printed(child: &mut Child, stdin: impl Write + Send, input: &[u8]) -> Result<String, String> {
    let (bytes, status) = feed(child, stdin, input)?;
    match status.code() {
        Some(_) => Ok(String::from_utf8_lossy(&bytes).into_owned()),
        None => Err(format!("ended by a signal: {status}")),
    }
}

/// Writes the input while reading the output, so that neither side waits for
/// ever; ends the program when patience does.
fn feed(
    child: &mut Child,
    mut stdin: impl Write + Send,
    input: &[u8],
) -> Result<(Vec<u8>, ExitStatus), String> {
    let mut stdout = child.stdout.take().expect("standard output is piped");
    let (sender, receiver) = mpsc::channel();
    thread::scope(|scope| {
        // A program may stop reading early, so a failed write is no fault.
        scope.spawn(move || drop(stdin.write_all(input)));
        scope.spawn(move || {
            let mut bytes = Vec::new();
            let read = stdout.read_to_end(&mut bytes);
            drop(sender.send(read.map(|_| bytes)));
        });
        let read = receiver.recv_timeout(PATIENCE);
        if read.is_err() {
            drop(child.kill());
        }
        let status = child.wait().map_err(|error| error.to_string())?;
        let bytes = read.map_err(|_| format!("no end after {} s", PATIENCE.as_secs()))?;
        Ok((bytes.map_err(|error| error.to_string())?, status))
    })
}
