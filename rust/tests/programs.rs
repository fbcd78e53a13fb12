//! Runs the programs that `tools/build` builds, as a teacher does: on the plates, and on sheets that are refused.

mod common;

use common::{printed, program, root};
use hjerringsel::plates::plate_a;
use std::fs;
use std::path::Path;

const PLATES: [&str; 5] = ["plate_a", "plate_a_still", "plate_b", "plate_b_257", "plate_a_looped"];

fn plate(name: &str, kind: &str) -> Vec<u8> {
    let path = root().join("plates").join(format!("{name}.{kind}"));
    fs::read(&path).unwrap_or_else(|error| panic!("{}: {error}", path.display()))
}

#[test]
fn each_plate_is_listed_as_stored() {
    for name in PLATES {
        let due = String::from_utf8(plate(name, "listing")).expect("text");
        assert_eq!(printed("listing", &plate(name, "sheet")), due, "{name}");
    }
}

#[test]
fn a_refused_sheet_gives_one_line() {
    let sheet = plate_a().write();
    assert_eq!(printed("listing", &[]), "refused 1 at 0\n");
    assert_eq!(printed("listing", &sheet[..73]), "refused 1 at 73\n");
    let mut behind = sheet.clone();
    behind.push(0);
    assert_eq!(printed("listing", &behind), "refused 5 at 74\n");
    // Longer than listing reads at all.
    behind.resize(9_000, 0);
    assert_eq!(printed("listing", &behind), "refused 5 at 74\n");
    assert_eq!(printed("watch", &sheet[..73]), "refused 1 at 73\n");
}

#[test]
fn the_plates_are_what_the_program_writes() {
    let folder = Path::new(env!("CARGO_TARGET_TMPDIR")).join("plates");
    let _ = fs::remove_dir_all(&folder);
    fs::create_dir_all(&folder).expect("a folder for the plates");
    let run = program("plates").current_dir(&folder).output().expect("plates runs");
    assert!(run.status.success(), "plates answers {}", run.status);
    assert_eq!(fs::read_dir(&folder).expect("the folder").count(), PLATES.len());
    for name in PLATES {
        let written = fs::read(folder.join(format!("{name}.sheet"))).expect("the plate's file");
        assert_eq!(written, plate(name, "sheet"), "{name}");
    }
}
