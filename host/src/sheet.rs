//! Sheets: records of 40 bytes, and particles; and the calls that write and read them.
use crate::raw;
pub use crate::raw::Particle;
use crate::Refusal;

/// How many bytes a record has: x, y, vx, vy and flags, little-endian, 8 bytes each.
pub const RECORD_BYTES: usize = 40;

impl Particle {
    /// Bit 0 of the flags, `with_fixed_x`: its x is held.
    pub const FIXED_X: u64 = 1;

    /// Bit 1 of the flags, `with_fixed_y`. As in the Rust it holds x too, and never y.
    pub const FIXED_Y: u64 = 2;

    /// A particle at rest, free on both axes.
    #[must_use]
    pub fn at(x: f64, y: f64) -> Particle {
        Particle { x, y, ..Particle::default() }
    }

    /// Its record.
    #[must_use]
    pub fn to_record(self) -> [u8; RECORD_BYTES] {
        let words = [self.x.to_bits(), self.y.to_bits(), self.vx.to_bits(), self.vy.to_bits(), self.flags];
        let mut record = [0; RECORD_BYTES];
        for (bytes, word) in record.chunks_exact_mut(8).zip(words) {
            bytes.copy_from_slice(&word.to_le_bytes());
        }
        record
    }

    /// The particle of a record, whatever its bytes.
    #[must_use]
    pub fn from_record(record: &[u8; RECORD_BYTES]) -> Particle {
        let word = |k: usize| {
            let mut bytes = [0; 8];
            bytes.copy_from_slice(&record[8 * k..8 * k + 8]);
            u64::from_le_bytes(bytes)
        };
        let number = |k| f64::from_bits(word(k));
        Particle { x: number(0), y: number(1), vx: number(2), vy: number(3), flags: word(4) }
    }
}

/// The sheet of these particles, record after record.
///
/// ```
/// use talemiku::{particles_of, sheet_of, Particle};
/// let sheet = sheet_of(&[Particle::at(0.0, 0.0), Particle::at(3.0, 3.0)]);
/// assert_eq!(sheet.len(), 80);
/// assert_eq!(particles_of(&sheet)[1], Particle::at(3.0, 3.0));
/// ```
#[must_use]
pub fn sheet_of(particles: &[Particle]) -> Vec<u8> {
    particles.iter().flat_map(|p| p.to_record()).collect()
}

/// The particles of a sheet's whole records.
#[must_use]
pub fn particles_of(sheet: &[u8]) -> Vec<Particle> {
    let record = |bytes: &[u8]| {
        let mut record = [0; RECORD_BYTES];
        record.copy_from_slice(bytes);
        Particle::from_record(&record)
    };
    sheet.chunks_exact(RECORD_BYTES).map(record).collect()
}

/// The sheet of these particles, record after record, written by the archive. [`read_particles_of`] gives the same particles again, bit for bit.
///
/// # Errors
///
/// 1 for over 4,096 particles; then as the first bad particle has it, by its index: 10 for an unknown flag, 4 for a coordinate, 5 for a velocity. So a sheet
/// that can't be read isn't written.
///
/// ```
/// use talemiku::{read_particles_of, written_sheet_of, Particle, Refusal};
/// let labels = [Particle::at(0.0, 0.0), Particle { flags: Particle::FIXED_X, ..Particle::at(3.0, -0.0) }];
/// let sheet = written_sheet_of(&labels)?;
/// assert_eq!((sheet.len(), sheet[72]), (80, 1));
/// assert_eq!(read_particles_of(&sheet)?, labels);
/// assert_eq!(written_sheet_of(&[labels[0], Particle::at(0.0, 2e12)]), Err(Refusal::Coordinate { particle: 1 }));
/// # Ok::<(), Refusal>(())
/// ```
pub fn written_sheet_of(particles: &[Particle]) -> Result<Vec<u8>, Refusal> {
    let mut sheet = vec![0; particles.len() * RECORD_BYTES];
    write_sheet(particles, &mut sheet)?;
    Ok(sheet)
}

/// The particles of a sheet, read by the archive. [`written_sheet_of`] gives the same bytes again.
///
/// # Errors
///
/// 10 for a length that is no multiple of 40, 1 for over 4,096 records; then as the first bad record has it, by its index: 10 for an unknown flag, 4 for
/// a coordinate, 5 for a velocity.
///
/// ```
/// use talemiku::{read_particles_of, written_sheet_of, Particle, Refusal};
/// let mut sheet = [0; 80];
/// assert_eq!(read_particles_of(&sheet)?, [Particle::at(0.0, 0.0); 2]);
/// assert_eq!(written_sheet_of(&read_particles_of(&sheet)?)?, sheet);
/// assert_eq!(read_particles_of(&sheet[1..]), Err(Refusal::Record { record: 0 }));
/// sheet[72] = 4;
/// assert_eq!(read_particles_of(&sheet), Err(Refusal::Record { record: 1 }));
/// # Ok::<(), Refusal>(())
/// ```
pub fn read_particles_of(sheet: &[u8]) -> Result<Vec<Particle>, Refusal> {
    let mut particles = vec![Particle::default(); sheet.len() / RECORD_BYTES];
    read_sheet(sheet, &mut particles)?;
    Ok(particles)
}

/// Writes the records of these particles into the first bytes of `sheet`, and answers how many bytes they take; a longer sheet keeps its rest.
///
/// # Errors
///
/// As for [`written_sheet_of`], and after 1 also 2 for a sheet of less than 40 bytes a particle. A refusal writes nothing.
///
/// ```
/// use talemiku::{write_sheet, Particle, Refusal};
/// let mut sheet = [9; 100];
/// let written = write_sheet(&[Particle::at(0.0, 0.0); 2], &mut sheet)?;
/// assert_eq!((written, &sheet[79..82]), (80, &[0, 9, 9][..]));
/// assert_eq!(write_sheet(&[Particle::at(0.0, 0.0); 3], &mut sheet), Err(Refusal::Lengths));
/// # Ok::<(), Refusal>(())
/// ```
pub fn write_sheet(particles: &[Particle], sheet: &mut [u8]) -> Result<usize, Refusal> {
    Refusal::unless(raw::write(particles, sheet), particles.len() * RECORD_BYTES)
}

/// Reads the particles of a sheet into the first places of `particles`, and answers how many they are; a longer list keeps its rest.
///
/// # Errors
///
/// As for [`read_particles_of`], and after 1 also 2 for a list of fewer places than the sheet has records. A refusal leaves all particles as they were, but for the
/// payload of a NaN.
///
/// ```
/// use talemiku::{read_sheet, sheet_of, Particle, Refusal};
/// let sheet = sheet_of(&[Particle::at(1.0, 2.0), Particle::at(3.0, 4.0)]);
/// let mut labels = [Particle::at(9.0, 9.0); 3];
/// assert_eq!(read_sheet(&sheet, &mut labels)?, 2);
/// assert_eq!(labels, [Particle::at(1.0, 2.0), Particle::at(3.0, 4.0), Particle::at(9.0, 9.0)]);
/// assert_eq!(read_sheet(&sheet, &mut labels[..1]), Err(Refusal::Lengths));
/// # Ok::<(), Refusal>(())
/// ```
pub fn read_sheet(sheet: &[u8], particles: &mut [Particle]) -> Result<usize, Refusal> {
    Refusal::unless(raw::read(sheet, particles), sheet.len() / RECORD_BYTES)
}
