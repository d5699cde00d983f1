//! One build of the library at several places in memory.  A loop can take a fifth longer or shorter
//! by where in a line of the cache it begins, and any change moves what comes after it.  So an
//! archive is linked behind paddings of 0, 16, 32 and 48 bytes: functions begin at multiples of 16,
//! and lines have 64.

use crate::library::Library;
use std::fs;
use std::path::Path;
use std::process::Command;

pub const PLACES: usize = 4;

/// The bytes from one place to the next.
const APART: usize = 16;

/// A build of the library, once at each place.
pub type Placed = [Library; PLACES];

/// Links an archive at each place, in this folder, under names that begin with this one.
pub fn placed(folder: &Path, name: &str, archive: &str) -> Placed {
    assert!(Path::new(archive).is_file(), "no library {archive:?}");
    std::array::from_fn(|place| {
        let padding = folder.join(format!("{name}{place}.s"));
        let shared = folder.join(format!("{name}{place}.so"));
        let text = format!(".text\n.p2align 6\n.skip {}, 0x90\n", place * APART);
        fs::write(&padding, text).expect("the padding is written");
        link(&padding, archive, &shared);
        Library::open(&shared)
    })
}

/// Links an archive behind a padding, every call of it.
fn link(padding: &Path, archive: &str, shared: &Path) {
    let status = Command::new("gcc")
        .args(["-shared", "-o"])
        .args([shared, padding])
        .args(["-Wl,--whole-archive", archive, "-Wl,--no-whole-archive"])
        .args(["-Wl,-z,noexecstack"])
        .status();
    assert!(status.expect("gcc").success(), "{archive} is not linked");
}
