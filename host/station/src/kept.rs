//! A station together with its journal.

use crate::effect::Effects;
use crate::failure::Failure;
use crate::journal::{Journal, Report};
use crate::message::Name;
use crate::refusal::Refusal;
use crate::size::Size;
use crate::slot::Input;
use crate::station::Station;
use std::path::Path;

/// A station whose inputs are kept in a journal: "The host lets output out only after the slot is
/// complete."
///
/// Each call works out the answer, has the record on the disk, and only then gives back what is to be
/// sent. So a power cut at any moment leaves no record and no output, or the record: never output of
/// an input that the station will not remember. Inputs answered 0, 6, 7 or 8 are kept; others have
/// changed nothing.
///
/// ```
/// use station::{Kept, Report, Size};
///
/// # let path = std::env::temp_dir().join(format!("kept-{}.journal", std::process::id()));
/// # let _ = std::fs::remove_file(&path);
/// let mut kept = Kept::begin(&path, 1000, Size::Small, 3, 2, 1)?;
/// for _ in 1..=5 {
///     for effect in kept.tick()? {
///         println!("{effect:?} may go out");
///     }
/// }
/// drop(kept); // the power is cut
///
/// let (kept, report) = Kept::resume(&path, Size::Small, 3, 2, 1)?;
/// assert_eq!(report, Report { records: 5, end: 5, torn: vec![] });
/// assert_eq!(kept.station().clock(), 5);
/// # std::fs::remove_file(&path)?;
/// # Ok::<(), station::Failure>(())
/// ```
#[derive(Debug)]
pub struct Kept {
    station: Station,
    journal: Journal,
    /// The store before the call at hand.
    before: Vec<u8>,
}

impl Kept {
    /// A fresh station, when its group begins, and a new journal for it with room for so many inputs.
    /// See [`Station::fresh`] and [`Journal::create`].
    pub fn begin(
        path: &Path,
        slots: u32,
        size: Size,
        n: u64,
        d: u64,
        own: u64,
    ) -> Result<Kept, Failure> {
        let station = Station::fresh(size, n, d, own)?;
        let journal = Journal::create(path, slots)?;
        Ok(Kept::of(station, journal))
    }

    /// The station of a journal, after a power cut or any other end, with the settings that it began
    /// with; and what was found. See [`Journal::open`].
    pub fn resume(
        path: &Path,
        size: Size,
        n: u64,
        d: u64,
        own: u64,
    ) -> Result<(Kept, Report), Failure> {
        let mut station = Station::fresh(size, n, d, own)?;
        let (journal, report) = Journal::open(path, &mut station)?;
        Ok((Kept::of(station, journal), report))
    }

    fn of(station: Station, journal: Journal) -> Kept {
        let before = station.store().to_vec();
        Kept { station, journal, before }
    }

    /// A message from another station, whose signatures the host has checked.
    pub fn step(&mut self, message: &[u8]) -> Result<Effects<'_>, Failure> {
        self.take(Input::Message(message))
    }

    /// One tick of the group's common clock.
    pub fn tick(&mut self) -> Result<Effects<'_>, Failure> {
        self.take(Input::Tick)
    }

    /// The name of a block to propose, if this station leads.
    pub fn offer(&mut self, name: &Name) -> Result<Effects<'_>, Failure> {
        self.take(Input::Offer(name))
    }

    /// Any input. Where it can't be kept, the station is as it was before.
    pub fn take(&mut self, input: Input<'_>) -> Result<Effects<'_>, Failure> {
        self.before.copy_from_slice(self.station.store());
        let answer = self.station.call(input);
        if is_kept(answer)
            && let Err(failure) = self.journal.append(input)
        {
            self.station.go_back(&self.before);
            return Err(failure);
        }
        Ok(self.station.said(answer?))
    }

    /// Makes room for so many more inputs.
    pub fn lengthen(&mut self, slots: u32) -> Result<(), Failure> {
        self.journal.lengthen(slots)
    }

    pub fn station(&self) -> &Station {
        &self.station
    }

    pub fn journal(&self) -> &Journal {
        &self.journal
    }
}

/// "one input answered 0, 6, 7 or 8".
fn is_kept(answer: Result<usize, Refusal>) -> bool {
    matches!(answer, Ok(_) | Err(Refusal::Full | Refusal::Split | Refusal::Clock))
}

#[cfg(test)]
mod tests {
    use super::*;
    use crate::journal::Disk;
    use crate::slot::{SLOT, Slot};
    use crate::{Effect, GENESIS, Message};
    use std::fs::{self, File, OpenOptions};
    use std::io::{self, Write};
    use std::path::PathBuf;

    fn path(test: &str) -> PathBuf {
        let directory = Path::new(env!("CARGO_MANIFEST_DIR")).join("../../target/host/tmp");
        fs::create_dir_all(&directory).unwrap();
        let path = directory.join(format!("kept-{test}.journal"));
        let _ = fs::remove_file(&path);
        path
    }

    /// Puts bytes in place of those that are there.
    fn lay(path: &Path, bytes: &[u8]) -> io::Result<()> {
        OpenOptions::new().write(true).open(path)?.write_all(bytes)
    }

    /// Where the disk takes nothing nothing comes out, the station is as it was, and it is so for good.
    #[test]
    fn nothing_comes_out_that_is_not_kept() {
        let path = path("read-only");
        let mut kept = Kept::begin(&path, 8, Size::Small, 3, 2, 1).unwrap();
        kept.tick().unwrap();
        let bytes = fs::read(&path).unwrap();
        kept.journal.put_in_place(Box::new(File::open(&path).unwrap()));
        for _ in 0..2 {
            let Err(Failure::Disk(_)) = kept.tick() else { panic!("it can't be written") };
            assert_eq!((kept.station().clock(), kept.journal().records()), (1, 1));
        }
        assert!(matches!(kept.lengthen(1), Err(Failure::Disk(_))));
        assert_eq!(fs::read(&path).unwrap(), bytes);
        drop(kept);
        let (kept, report) = Kept::resume(&path, Size::Small, 3, 2, 1).unwrap();
        assert_eq!((report.records, kept.station().clock()), (1, 1));
        fs::remove_file(&path).unwrap();
    }

    /// A disk whose power is cut after so many bytes.
    #[derive(Debug)]
    struct Cut {
        path: PathBuf,
        bytes: Vec<u8>,
        left: usize,
    }

    impl Disk for Cut {
        fn store(&mut self, at: u64, bytes: &[u8]) -> io::Result<()> {
            let (at, stored) = (at as usize, bytes.len().min(self.left));
            self.bytes[at..at + stored].copy_from_slice(&bytes[..stored]);
            self.left -= stored;
            if stored == bytes.len() {
                return Ok(());
            }
            // What a host finds when it starts again.
            lay(&self.path, &self.bytes)?;
            Err(io::Error::other("the power is cut"))
        }

        fn lengthen(&mut self, _: u64, to: u64) -> io::Result<()> {
            self.bytes.resize(to as usize, 0);
            Ok(())
        }
    }

    /// The power is cut after each byte of a run. What came out until then is what the records that are
    /// then found give again: no output is without its record, and none of a whole one is kept back but
    /// for the last.
    #[test]
    fn what_came_out_is_what_is_kept() {
        let path = path("cut");
        let blame = Message::Blame { view: 1, author: 0 }.encode();
        let vote = Message::Vote { view: 1, height: 0, name: GENESIS, author: 0 }.encode();
        let mut inputs = vec![Input::Tick; 5];
        inputs.extend([Input::Message(&vote), Input::Offer(&[7; 32]), Input::Tick]);
        inputs.extend([Input::Message(&blame), Input::Tick]);
        drop(Kept::begin(&path, inputs.len() as u32, Size::Small, 3, 2, 1).unwrap());
        let bytes = vec![0; inputs.len() * SLOT];
        for left in 0..inputs.len() * SLOT {
            lay(&path, &bytes).unwrap();
            let (mut kept, _) = Kept::resume(&path, Size::Small, 3, 2, 1).unwrap();
            let disk = Cut { path: path.clone(), bytes: bytes.clone(), left };
            kept.journal.put_in_place(Box::new(disk));
            let mut came_out: Vec<Effect> = Vec::new();
            for input in &inputs {
                match kept.take(*input) {
                    Ok(effects) => came_out.extend(effects),
                    Err(_) => break,
                }
            }
            let before = kept.station().store().to_vec();
            drop(kept);
            let (kept, report) = Kept::resume(&path, Size::Small, 3, 2, 1).unwrap();
            assert_eq!(report.records as usize, left / SLOT);
            assert_eq!(kept.station().store(), before);
            let mut again = Station::fresh(Size::Small, 3, 2, 1).unwrap();
            let found = fs::read(&path).unwrap();
            let said = Slot::inputs(&found)
                .flat_map(|input| again.take(input).unwrap().collect::<Vec<Effect>>());
            assert!(said.eq(came_out), "cut after {left}");
        }
        fs::remove_file(&path).unwrap();
    }
}
