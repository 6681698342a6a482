//! Where a log can be kept: on a disk of this computer, under one name.

use super::system::file_system;
use super::watched::FileNumber;
use crate::Error;
use std::ffi::OsString;
use std::os::unix::ffi::OsStringExt;
use std::path::{Path, PathBuf};

/// The kinds of file systems that other computers may write to, by the numbers of `statfs`.
const NETWORKS: [(u32, &str); 17] = [
    (0x6969, "NFS"),
    (0x517B, "SMB"),
    (0xFE53_4D42, "SMB"),
    (0xFF53_4D42, "CIFS"),
    (0x0102_1997, "9P"),
    (0x00C3_6400, "Ceph"),
    (0x5346_414F, "AFS"),
    (0x6B41_4653, "AFS"),
    (0x7375_7245, "Coda"),
    (0x0000_564C, "NCP"),
    (0x0BD0_0BD0, "Lustre"),
    (0x0116_1970, "GFS2"),
    (0x7461_636F, "OCFS2"),
    (0x1983_0326, "BeeGFS"),
    (0x4750_4653, "GPFS"),
    (0x786F_4256, "vboxsf"),
    (0xBACB_ACBC, "vmhgfs"),
];

/// The number of all file systems that a process serves, of which some are a network's.
const SERVED: u32 = 0x6573_5546;

/// Those of them that are, by the types in the list of mounts.
const SERVED_NETWORKS: [&str; 11] = [
    "virtiofs",
    "fuse.sshfs",
    "fuse.glusterfs",
    "fuse.ceph",
    "fuse.ceph-fuse",
    "fuse.s3fs",
    "fuse.gcsfuse",
    "fuse.rclone",
    "fuse.curlftpfs",
    "fuse.juicefs",
    "fuse.vmhgfs-fuse",
];

/// Refuses a folder that is on a network.
pub(crate) fn fit_folder(path: &Path) -> Result<(), Error> {
    let folder = path.parent().filter(|folder| !folder.as_os_str().is_empty()).unwrap_or(Path::new("."));
    local(folder, &Mounts::read())
}

/// Refuses a file that is on a network, or that is mounted by itself and so has two names.
pub(crate) fn fit_file(path: &Path, file: FileNumber) -> Result<(), Error> {
    let mounts = Mounts::read();
    local(path, &mounts)?;
    let Ok(path) = path.canonicalize() else { return Err(Error::Missing) };
    match mounts.of_file(&path, file) {
        None => Ok(()),
        Some(mount) => Err(Error::Unfit(format!(
            "it is mounted by itself as {}, and steps by its two names would not see each other: mount its folder",
            mount.display()
        ))),
    }
}

fn local(path: &Path, mounts: &Mounts) -> Result<(), Error> {
    let Some(kind) = file_system(path) else { return Ok(()) };
    let mut name = NETWORKS.iter().find(|network| network.0 == kind).map(|network| network.1);
    if kind == SERVED
        && let Some(file) = FileNumber::of(path)
    {
        let of = mounts.kind_of(file.device);
        name = SERVED_NETWORKS.into_iter().find(|&network| of == Some(network.as_bytes()));
    }
    match name {
        None => Ok(()),
        Some(name) => Err(Error::Unfit(format!(
            "it is on a network's file system ({name}), where other computers do not see its locks: keep it on a disk of \
             this computer"
        ))),
    }
}

/// The kernel's list of mounts. It is empty where there is none to read.
struct Mounts(Vec<u8>);

/// What a line of the list says: the device's numbers, what of its file system is mounted, where, and of what type.
struct Mount<'a> {
    device: &'a [u8],
    root: PathBuf,
    at: PathBuf,
    kind: &'a [u8],
}

impl Mounts {
    fn read() -> Self {
        Mounts(std::fs::read("/proc/self/mountinfo").unwrap_or_default())
    }

    fn lines(&self) -> impl Iterator<Item = Mount<'_>> {
        self.0.split(|&byte| byte == b'\n').filter_map(Mount::parse)
    }

    /// The type of the file system on this device.
    fn kind_of(&self, [major, minor]: [u32; 2]) -> Option<&[u8]> {
        let device = format!("{major}:{minor}");
        self.lines().find(|mount| mount.device == device.as_bytes()).map(|mount| mount.kind)
    }

    /// Where this file is mounted by itself. The folder that it is in has another mount.
    fn of_file(&self, path: &Path, file: FileNumber) -> Option<PathBuf> {
        // No other mount is looked at: that may take long where a network is down.
        let may_be = |mount: &Mount<'_>| mount.at == path || mount.root.file_name() == path.file_name();
        let is = |mount: &Mount<'_>| FileNumber::of(&mount.at) == Some(file);
        self.lines().find(|mount| may_be(mount) && is(mount)).map(|mount| mount.at)
    }
}

impl<'a> Mount<'a> {
    /// As `36 25 8:1 /data/run.db /mnt/run.db rw,relatime shared:1 - ext4 /dev/sda1 rw`.
    fn parse(line: &'a [u8]) -> Option<Self> {
        let mut words = line.split(|&byte| byte == b' ');
        let (device, root, at) = (words.nth(2)?, words.next()?, words.next()?);
        let kind = words.skip_while(|&word| word != b"-").nth(1)?;
        Some(Mount { device, root: unescaped(root), at: unescaped(at), kind })
    }
}

/// The kernel writes a space as `\040`, and so on.
fn unescaped(word: &[u8]) -> PathBuf {
    let mut bytes = Vec::new();
    let mut rest = word;
    while let [first, after @ ..] = rest {
        let escaped = after.first_chunk::<3>().filter(|_| *first == b'\\');
        let byte = escaped.and_then(|digits| u8::from_str_radix(str::from_utf8(digits).ok()?, 8).ok());
        bytes.push(byte.unwrap_or(*first));
        rest = if byte.is_some() { &after[3..] } else { after };
    }
    OsString::from_vec(bytes).into()
}

#[cfg(test)]
mod tests {
    use super::*;

    #[test]
    fn lines_of_the_list() {
        let list = b"21 1 254:0 / / rw,relatime - ext4 /dev/vda rw\n\
                     36 21 0:47 /a\\040b/run.db /mnt/c\\134d rw shared:1 master:2 - fuse.sshfs host:/x rw\n\
                     cut short\n";
        let mounts = Mounts(list.to_vec());
        let lines: Vec<_> = mounts.lines().collect();
        assert_eq!(lines.len(), 2);
        assert_eq!(lines[1].root, Path::new("/a b/run.db"));
        assert_eq!(lines[1].at, Path::new("/mnt/c\\d"));
        assert_eq!(mounts.kind_of([0, 47]), Some(&b"fuse.sshfs"[..]));
        assert_eq!(mounts.kind_of([254, 0]), Some(&b"ext4"[..]));
        assert_eq!(mounts.kind_of([0, 48]), None);
        assert_eq!(unescaped(b"\\04"), Path::new("\\04"));
    }
}
