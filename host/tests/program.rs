//! Parts of the program behind ./run, examples/layout: labels that need draws at every tick are spread, and two files are written or none.
#![allow(dead_code)]
#[path = "../examples/layout/chart.rs"]
mod chart;
#[path = "../examples/layout/files.rs"]
mod files;
#[path = "../examples/layout/spread.rs"]
mod spread;
#[path = "../examples/layout/text.rs"]
mod text;

use chart::Chart;
use files::{read, write_both};
use spread::spread;
use std::path::{Path, PathBuf};
use std::{env, fs, process};
use talemiku::{particles_of, sheet_of, Particle};

/// Labels held at one x, so far apart.
fn column(labels: u32, gap: f64) -> Vec<u8> {
    let held = |k| Particle { flags: Particle::FIXED_X, ..Particle::at(0.0, f64::from(k) * gap) };
    sheet_of(&(0..labels).map(held).collect::<Vec<_>>())
}

#[test]
fn labels_held_at_one_x() {
    // at least so many draws in all; ten labels take more in a portion than it is lent at first
    for (labels, gap, radius, least) in [(2, 40.0, 12.0, 599), (10, 32.0, 12.0, 15_000), (10, 32.0, 40.0, 15_000)] {
        let chart = Chart::of_records(column(labels, gap), radius);
        let done = spread(&chart, |_| {}).expect("not refused");
        assert_eq!(done.ticks, spread::TICKS);
        assert!(done.draws > least, "{} draws", done.draws);
        assert!(particles_of(&done.sheet).iter().all(|label| label.x == 0.0));
    }
}

/// A folder that goes with its name.
struct Folder(PathBuf);

impl Folder {
    fn new(name: &str) -> Folder {
        let folder = env::temp_dir().join(format!("talemiku-{}-{name}", process::id()));
        fs::create_dir(&folder).expect("a folder");
        Folder(folder)
    }

    fn names(&self) -> Vec<String> {
        let name = |entry: std::io::Result<fs::DirEntry>| entry.expect("a file").file_name().to_string_lossy().into_owned();
        let mut names: Vec<String> = fs::read_dir(&self.0).expect("the folder").map(name).collect();
        names.sort();
        names
    }
}

impl Drop for Folder {
    fn drop(&mut self) {
        let _ = fs::remove_dir_all(&self.0);
    }
}

#[test]
fn both_files_or_neither() {
    let folder = Folder::new("both");
    let [sheet, picture] = ["a.sheet", "a.svg"].map(|name| folder.0.join(name));
    let write = |text: &str| write_both((&sheet, text.as_bytes()), (&picture, text.as_bytes()));
    // an earlier run that was killed may have left a name like ours
    let left = format!(".layout-{}-0", process::id());
    fs::write(folder.0.join(&left), "left").unwrap();
    for text in ["first", "second"] {
        assert_eq!(write(text), Ok(()));
        assert_eq!([&sheet, &picture].map(|path| fs::read_to_string(path).unwrap()), [text, text]);
        assert_eq!(folder.names(), [&left, "a.sheet", "a.svg"]);
    }
    fs::remove_file(&picture).unwrap();
    fs::create_dir(&picture).unwrap();
    assert!(write("third").is_err());
    assert_eq!(fs::read_to_string(&sheet).unwrap(), "second");
    fs::remove_file(&sheet).unwrap();
    assert!(write("fourth").is_err());
    assert_eq!(folder.names(), [&left, "a.svg"]);
    assert!(write_both((&sheet, b""), (Path::new("/no such folder/a.svg"), b"")).is_err());
    assert_eq!(folder.names(), [&left, "a.svg"]);
}

#[test]
fn a_sheet_is_read_up_to_its_limit() {
    let folder = Folder::new("read");
    let path = folder.0.join("a.sheet");
    let file = fs::File::create(&path).unwrap();
    let reads = |bytes: u64| {
        file.set_len(bytes).unwrap();
        read(&path).map(|sheet| sheet.len())
    };
    assert_eq!(reads(0), Ok(0));
    assert_eq!(reads(163_840), Ok(163_840));
    for (bytes, number) in [(163_841, "10"), (163_880, "1"), (1 << 35, "10"), (5 << 35, "1")] {
        let why = reads(bytes).unwrap_err();
        assert!(why.starts_with(&format!("refused {number}: ")), "{bytes} bytes: {why}");
    }
    assert!(read(&folder.0).is_err());
    assert!(read(Path::new("/dev/zero")).unwrap_err().contains("goes on after 4096 records"));
}
