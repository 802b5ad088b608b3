//! The program behind `./run`: layout OUT [SHEET [RADIUS]]. Spreads the labels of a chart, prints a summary, and writes OUT.sheet and OUT.svg.
//!
//! Without SHEET the chart is an invented harbour; with it, the file's 40-byte records, each a disc of RADIUS (12). A sheet that can't be laid out is
//! answered by the refusal's number, its place if it names one, and a sentence, with status 1, and nothing is written.
mod cells;
mod chart;
mod files;
mod overlap;
mod picture;
mod spread;
mod text;
mod view;

use chart::Chart;
use overlap::overlapping;
use spread::{spread, Spread};
use std::env;
use std::ffi::{OsStr, OsString};
use std::io::{self, Write};
use std::path::{Path, PathBuf};
use std::process::exit;
use std::thread;
use std::time::{Duration, Instant};
use talemiku::{particles_of, Refusal};

/// How long a run says nothing.
const SILENCE: Duration = Duration::from_secs(5);

/// A tick takes some 400 KB of stack, and how much the main thread has is up to the user: the run has a stack of its own.
const STACK: usize = 8 << 20;

fn main() {
    let words: Vec<OsString> = env::args_os().skip(1).collect();
    let ended = match thread::Builder::new().stack_size(STACK).spawn(move || run(&words)) {
        Ok(running) => running.join().unwrap_or_else(|_| Err("the run broke off".to_string())),
        Err(why) => Err(format!("a thread with a stack of {} MB can't be had: {why}", STACK >> 20)),
    };
    if let Err(sentence) = ended {
        say(&sentence);
        exit(1);
    }
}

/// Says a line on the standard error, if anyone is there to hear it.
fn say(line: &str) {
    let _ = writeln!(io::stderr(), "{line}");
}

fn run(words: &[OsString]) -> Result<(), String> {
    let (out, chart) = match words {
        [out] => (out, Chart::harbour()),
        [out, sheet] => (out, Chart::of_records(files::read(Path::new(sheet))?, chart::RADIUS)),
        [out, sheet, radius] => {
            let radius = chart::radius_of(radius)?;
            (out, Chart::of_records(files::read(Path::new(sheet))?, radius))
        }
        _ => return Err("usage: layout OUT [SHEET [RADIUS]]".to_string()),
    };
    lay_out(&chart, out)
}

fn lay_out(chart: &Chart, out: &OsStr) -> Result<(), String> {
    let start = Instant::now();
    let refused = |refusal: Refusal| refusal.to_string();
    let done = spread(chart, progress()).map_err(refused)?;
    let seconds = start.elapsed().as_secs_f64();
    let pairs = [&chart.sheet, &done.sheet].map(|sheet| overlapping(&particles_of(sheet), &chart.radii));
    let picture = picture::draw(chart, &done, pairs).map_err(refused)?;

    let [sheet, svg] = [".sheet", ".svg"].map(|ending| with(out, ending));
    files::write_both((&sheet, &done.sheet), (&svg, picture.as_bytes()))?;
    let written = format!("written: {}, {}", sheet.display(), svg.display());
    print(&format!("{}{written}\n", summary(chart, &done, pairs, seconds)))
        .map_err(|why| format!("{written}, but the summary isn't: {why}"))
}

/// The name with an ending more.
fn with(name: &OsStr, ending: &str) -> PathBuf {
    let mut name = name.to_owned();
    name.push(ending);
    name.into()
}

fn print(text: &str) -> io::Result<()> {
    let mut out = io::stdout();
    out.write_all(text.as_bytes())?;
    out.flush()
}

/// Says how far a long run has come.
fn progress() -> impl FnMut(u64) {
    let mut said = Instant::now();
    move |ticks| {
        if said.elapsed() >= SILENCE {
            said = Instant::now();
            say(&format!("{ticks} of {} ticks", spread::TICKS));
        }
    }
}

fn summary(chart: &Chart, done: &Spread, pairs: [usize; 2], seconds: f64) -> String {
    let Spread { ticks, visits, draws, alpha, .. } = done;
    let [before, after] = pairs;
    let labels = chart.radii.len();
    let plural = if labels == 1 { "" } else { "s" };
    format!(
        "{labels} label{plural}, not refused\n\
        {ticks} ticks, {visits} nodes visited, {draws} draws used, alpha {alpha:.5}\n\
        overlapping pairs: {before} before, {after} after\n\
        {seconds:.3} seconds\n"
    )
}
