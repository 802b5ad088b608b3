//! Files: a sheet read within its limit, and two files written so that none stands alone.
use crate::spread::MOST;
use std::fs::{self, File, OpenOptions};
use std::io::{self, ErrorKind, Read, Write};
use std::os::unix::fs::FileTypeExt;
use std::path::{Path, PathBuf};
use std::process;
use std::sync::mpsc;
use std::thread;
use std::time::Duration;
use talemiku::{Refusal, RECORD_BYTES};

/// The bytes of the longest sheet.
const LONGEST: usize = MOST * RECORD_BYTES;

/// How long a pipe is waited for.
const PATIENCE: Duration = Duration::from_secs(2);

/// How many names of ours may stand in a folder already, left by runs that were killed.
const LEFT: u32 = 100;

/// The bytes of a sheet, or a sentence on why it isn't laid out. What is longer than any sheet isn't read: its length alone decides how it is refused.
pub fn read(path: &Path) -> Result<Vec<u8>, String> {
    let unread = |why: io::Error| format!("{} can't be read: {why}", path.display());
    let file = open(path).map_err(unread)?;
    let known = file.metadata().map_err(unread)?;
    if known.is_file() && known.len() > LONGEST as u64 {
        return Err(too_long(known.len()).to_string());
    }
    // a pipe has no length, and a file may grow
    let mut bytes = Vec::new();
    let most = LONGEST + RECORD_BYTES;
    file.take(most as u64).read_to_end(&mut bytes).map_err(unread)?;
    if bytes.len() == most {
        return Err(format!("{} goes on after {MOST} records, the most that a sheet has", path.display()));
    }
    Ok(bytes)
}

/// What the library answers to a sheet of so many bytes, more than the longest has.
fn too_long(bytes: u64) -> Refusal {
    if bytes % RECORD_BYTES as u64 == 0 {
        Refusal::TooMany
    } else {
        Refusal::Record { record: 0 }
    }
}

/// Opens a file. A named pipe opens when something opens it for writing: if nothing does, the thread that waits for that ends with the program.
fn open(path: &Path) -> io::Result<File> {
    if !fs::metadata(path)?.file_type().is_fifo() {
        return File::open(path);
    }
    let (sender, receiver) = mpsc::channel();
    let pipe = path.to_owned();
    thread::Builder::new().spawn(move || sender.send(File::open(pipe)))?;
    let nobody = |_| Err(io::Error::new(ErrorKind::TimedOut, "it is a pipe, and nothing writes to it"));
    receiver.recv_timeout(PATIENCE).unwrap_or_else(nobody)
}

/// Writes two files, or neither. Both are written whole, under other names in the same folders, before the first takes its place; where the second then can't, what was in
/// the first's place comes back.
pub fn write_both(first: (&Path, &[u8]), second: (&Path, &[u8])) -> Result<(), String> {
    let unwritten = |path: &Path, why: io::Error| format!("{} can't be written: {why}", path.display());
    let [draft, other] = [first, second].map(|(path, bytes)| Draft::of(path, bytes).map_err(|why| unwritten(path, why)));
    let (draft, other) = (draft?, other?);
    let before = Draft::kept(first.0);
    draft.place(first.0).map_err(|why| unwritten(first.0, why))?;
    other.place(second.0).map_err(|why| {
        let _ = before.map_or_else(|_| fs::remove_file(first.0), |before| before.place(first.0));
        unwritten(second.0, why)
    })
}

/// A file under a name of ours, which goes unless the file takes its place.
struct Draft(PathBuf);

impl Draft {
    /// These bytes, in the folder of `path`.
    fn of(path: &Path, bytes: &[u8]) -> io::Result<Draft> {
        let (draft, mut file) = Draft::new(path, |name| OpenOptions::new().write(true).create_new(true).open(name))?;
        file.write_all(bytes)?;
        file.sync_all()?;
        Ok(draft)
    }

    /// What `path` names now.
    fn kept(path: &Path) -> io::Result<Draft> {
        Draft::new(path, |name| fs::hard_link(path, name)).map(|(draft, _)| draft)
    }

    /// What `make` makes in the folder of `path`, under a name that nothing has.
    fn new<A>(path: &Path, make: impl Fn(&Path) -> io::Result<A>) -> io::Result<(Draft, A)> {
        let names = (0..LEFT).map(|k| path.with_file_name(format!(".layout-{}-{k}", process::id())));
        let mut made = Err(ErrorKind::AlreadyExists.into());
        for name in names {
            made = make(&name).map(|made| (Draft(name), made));
            if !matches!(&made, Err(why) if why.kind() == ErrorKind::AlreadyExists) {
                break;
            }
        }
        made
    }

    fn place(&self, path: &Path) -> io::Result<()> {
        fs::rename(&self.0, path)
    }
}

impl Drop for Draft {
    fn drop(&mut self) {
        // nothing has the name any more where the file took its place
        let _ = fs::remove_file(&self.0);
    }
}
