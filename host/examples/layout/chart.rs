//! What is laid out: labels, each a disc, some held, some linked. An invented harbour, or a user's records.
use crate::text;
use std::ffi::OsStr;
use talemiku::{sheet_of, Particle, RECORD_BYTES};

/// The radius of a user's labels, unless one is given.
pub const RADIUS: f64 = 12.0;

/// The greatest radius or other number that a force takes.
pub const GREATEST: f64 = (1u64 << 40) as f64;

/// How large the harbour's names are printed.
const PRINT: f64 = 9.0;

/// A chart before it is laid out.
pub struct Chart {
    pub sheet: Vec<u8>,
    /// A name a label.
    pub names: Vec<String>,
    /// A radius a label.
    pub radii: Vec<f64>,
    /// The numbers of the labels that links tie, two a link.
    pub links: Vec<u32>,
}

impl Chart {
    /// A user's records, whatever their bytes: discs of one radius, named by number.
    pub fn of_records(sheet: Vec<u8>, radius: f64) -> Chart {
        let labels = sheet.len() / RECORD_BYTES;
        Chart { sheet, names: (0..labels).map(|number| number.to_string()).collect(), radii: vec![radius; labels], links: Vec::new() }
    }

    /// The harbour: discs as large as their names, crowded. The moles, the light and the lock are held; buoys, quays and the like are linked in pairs.
    pub fn harbour() -> Chart {
        let place = |&(_, x, y, flags): &(&str, f64, f64, u64)| Particle { flags, ..Particle::at(x, y) };
        Chart {
            sheet: sheet_of(&HARBOUR.iter().map(place).collect::<Vec<_>>()),
            names: HARBOUR.iter().map(|label| label.0.to_string()).collect(),
            radii: HARBOUR.iter().map(|label| text::radius(label.0, PRINT)).collect(),
            links: PAIRS.iter().flat_map(|pair| pair.map(number)).collect(),
        }
    }
}

/// The radius that a user's word means, or a sentence on why it means none.
pub fn radius_of(word: &OsStr) -> Result<f64, String> {
    let radius = word.to_str().and_then(|word| word.parse().ok());
    let fits = radius.filter(|radius| (0.0..=GREATEST).contains(radius));
    fits.ok_or_else(|| format!("the radius must be a number from 0 to 2^40, and `{}` is none", word.to_string_lossy()))
}

/// The number of the harbour's first label of this name.
fn number(name: &str) -> u32 {
    let found = HARBOUR.iter().position(|label| label.0 == name);
    found.unwrap_or_else(|| unreachable!("the harbour has no {name}")) as u32
}

const FREE: u64 = 0;
const HELD: u64 = Particle::FIXED_X;

/// Name, x, y, flags. One depth was sounded twice at the same place.
const HARBOUR: [(&str, f64, f64, u64); 24] = [
    ("Harbour Light", 218.0, 84.0, HELD),
    ("North Mole", 243.0, 40.0, HELD),
    ("South Mole", 248.0, 138.0, HELD),
    ("Buoy 1", 148.0, 80.0, FREE),
    ("Buoy 2", 157.0, 108.0, FREE),
    ("Buoy 3", 113.0, 68.0, FREE),
    ("Buoy 4", 119.0, 102.0, FREE),
    ("Fairway", 84.0, 90.0, FREE),
    ("Wreck (1911)", 94.0, 120.0, FREE),
    ("Sand Bank", 71.0, 156.0, FREE),
    ("Anchorage A", 43.0, 66.0, FREE),
    ("Anchorage B", 49.0, 86.0, FREE),
    ("Pilot Station", 40.0, 104.0, FREE),
    ("Fish Quay", 278.0, 54.0, FREE),
    ("Customs Quay", 286.0, 76.0, FREE),
    ("Coal Quay", 283.0, 98.0, FREE),
    ("Slipway", 274.0, 120.0, FREE),
    ("Boat Yard", 295.0, 130.0, FREE),
    ("Lock Gate", 312.0, 86.0, HELD),
    ("Ferry Berth", 267.0, 86.0, FREE),
    ("Tide Gauge", 253.0, 84.0, FREE),
    ("Depth 7.2", 183.0, 90.0, FREE),
    ("Depth 6.8", 188.0, 102.0, FREE),
    ("Depth 7.1", 183.0, 90.0, FREE),
];

/// Labels that belong together.
const PAIRS: [[&str; 2]; 7] = [
    ["Harbour Light", "Tide Gauge"],
    ["Buoy 1", "Buoy 2"],
    ["Buoy 3", "Buoy 4"],
    ["Fairway", "Wreck (1911)"],
    ["Anchorage A", "Anchorage B"],
    ["Fish Quay", "Customs Quay"],
    ["Slipway", "Boat Yard"],
];
