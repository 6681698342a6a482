//! The disk that a power failure leaves, from what was done to files before it.
//!
//! What was written and not synced may have reached the disk or not, each write by itself, and of a write any of its
//! sectors. A file that was made or removed may be missing or still there on the disk until its folder is synced.

use crate::calls::{Done, What};
use model::random::Random;
use std::collections::BTreeMap;
use std::path::{Path, PathBuf};

/// What a disk writes whole.
const SECTOR: usize = 512;

/// The files of a folder by their names.
pub type Files = BTreeMap<PathBuf, Vec<u8>>;

/// A file: what is on the disk, and what may be.
#[derive(Clone, Default)]
struct File {
    synced: Vec<u8>,
    pending: Vec<What>,
}

/// What was done to the names of a folder, with a file's number.
#[derive(Clone)]
enum Naming {
    Made(PathBuf, usize),
    Removed(PathBuf),
    Renamed(PathBuf, PathBuf),
}

/// A folder on a disk.
#[derive(Clone, Default)]
pub struct Disk {
    folder: PathBuf,
    files: Vec<File>,
    /// The names as a process sees them, and as they are on the disk.
    names: BTreeMap<PathBuf, usize>,
    synced: BTreeMap<PathBuf, usize>,
    pending: Vec<Naming>,
}

/// What a power failure makes of what is pending.
#[derive(Clone, Copy, Debug, PartialEq, Eq)]
pub enum Loss {
    /// All of it is lost.
    All,
    /// None of it is.
    None,
    /// Some of it is.
    Some,
}

impl Disk {
    /// An empty folder.
    pub fn empty(folder: &Path) -> Disk {
        Disk { folder: folder.into(), ..Disk::default() }
    }

    /// Does once more what was done. The file that processes share as memory is none that a disk keeps.
    pub fn follow(&mut self, done: &Done) {
        if done.file == self.folder {
            for naming in std::mem::take(&mut self.pending) {
                rename(&mut self.synced, &naming);
            }
        } else if done.file.parent() == Some(&self.folder) && !done.file.to_string_lossy().ends_with("-shm") {
            self.follow_in(&done.file, &done.what);
        }
    }

    fn follow_in(&mut self, name: &Path, what: &What) {
        match what {
            What::Removed => return self.name(Naming::Removed(name.into())),
            What::Renamed(to) => return self.name(Naming::Renamed(name.into(), to.clone())),
            _ => {}
        }
        let number = *self.names.get(name).unwrap_or(&self.files.len());
        if number == self.files.len() {
            self.files.push(File::default());
            self.name(Naming::Made(name.into(), number));
        }
        let file = &mut self.files[number];
        match what {
            What::Synced => {
                for what in std::mem::take(&mut file.pending) {
                    apply(&mut file.synced, &what);
                }
            }
            what => file.pending.push(what.clone()),
        }
    }

    fn name(&mut self, naming: Naming) {
        rename(&mut self.names, &naming);
        self.pending.push(naming);
    }

    /// Whether anything is pending.
    pub fn is_pending(&self) -> bool {
        !self.pending.is_empty() || self.files.iter().any(|file| !file.pending.is_empty())
    }

    /// What is there after a power failure.
    pub fn after(&self, loss: Loss, random: &mut Random) -> Files {
        let kept = match loss {
            Loss::All => 0,
            Loss::None => self.pending.len(),
            Loss::Some => random.below(self.pending.len() as u64 + 1) as usize,
        };
        let mut names = self.synced.clone();
        self.pending[..kept].iter().for_each(|naming| rename(&mut names, naming));
        names.into_iter().map(|(name, number)| (name, self.files[number].after(loss, random))).collect()
    }
}

impl File {
    fn after(&self, loss: Loss, random: &mut Random) -> Vec<u8> {
        let mut bytes = self.synced.clone();
        for what in &self.pending {
            match (loss, random.below(100)) {
                (Loss::None, _) | (Loss::Some, 0..45) => apply(&mut bytes, what),
                (Loss::Some, 45..75) => torn(&mut bytes, what, random),
                _ => {}
            }
        }
        bytes
    }
}

fn rename(names: &mut BTreeMap<PathBuf, usize>, naming: &Naming) {
    match naming {
        Naming::Made(name, number) => names.insert(name.clone(), *number),
        Naming::Removed(name) => names.remove(name),
        Naming::Renamed(from, to) => names.remove(from).and_then(|number| names.insert(to.clone(), number)),
    };
}

fn apply(bytes: &mut Vec<u8>, what: &What) {
    match what {
        What::Written(offset, written) => put(bytes, *offset as usize, written),
        What::Cut(length) => bytes.resize(*length as usize, 0),
        What::Synced | What::Removed | What::Renamed(_) => {}
    }
}

/// Applies some of the sectors of a write.
fn torn(bytes: &mut Vec<u8>, what: &What, random: &mut Random) {
    let What::Written(offset, written) = what else { return };
    let (mut at, mut rest) = (*offset as usize, &written[..]);
    while !rest.is_empty() {
        let (sector, others) = rest.split_at(rest.len().min(SECTOR - at % SECTOR));
        if random.chance(50) {
            put(bytes, at, sector);
        }
        (at, rest) = (at + sector.len(), others);
    }
}

fn put(bytes: &mut Vec<u8>, at: usize, written: &[u8]) {
    let end = at + written.len();
    bytes.resize(bytes.len().max(end), 0);
    bytes[at..end].copy_from_slice(written);
}

#[cfg(test)]
mod tests {
    use super::*;

    fn done(what: What) -> Done {
        Done { file: "/disk/file".into(), what }
    }

    #[test]
    fn what_is_synced_stays() {
        let mut disk = Disk::empty(Path::new("/disk"));
        disk.follow(&done(What::Written(0, vec![1; 600])));
        let mut random = Random::new(1);
        assert!(disk.after(Loss::All, &mut random).is_empty());
        disk.follow(&done(What::Synced));
        // Its name is not on the disk yet.
        assert!(disk.after(Loss::All, &mut random).is_empty());
        disk.follow(&Done { file: "/disk".into(), what: What::Synced });
        let file = |files: Files| files[Path::new("/disk/file")].clone();
        assert_eq!(file(disk.after(Loss::All, &mut random)), [1; 600]);
        assert!(!disk.is_pending());
        disk.follow(&done(What::Written(0, vec![2; 600])));
        disk.follow(&done(What::Cut(550)));
        assert_eq!(file(disk.after(Loss::All, &mut random)), [1; 600]);
        assert_eq!(file(disk.after(Loss::None, &mut random)), [2; 550]);
        // Each of the two sectors is old or new, and each length is met.
        let mut met = std::collections::BTreeSet::new();
        for _ in 0..200 {
            let bytes = file(disk.after(Loss::Some, &mut random));
            assert!(
                bytes[..512].iter().all(|byte| *byte == bytes[0])
                    && bytes[512..].iter().all(|byte| *byte == bytes[512])
            );
            met.insert((bytes[0], bytes[512], bytes.len()));
        }
        assert_eq!(met.len(), 8);
        disk.follow(&done(What::Removed));
        assert!(disk.after(Loss::None, &mut random).is_empty());
        assert_eq!(disk.after(Loss::All, &mut random).len(), 1);
    }
}
