//! Replays every run file of a directory and compares with its listing.
//!
//! HALL_VECTORS names the directory; the default is `../vectors`, seen from
//! this package. HALL_VECTORS_LEAST states how many vectors there must be at
//! least; the default is `LEAST`.

mod files;

use files::{bytes_of, Folder};
use reference::{listing, read_run_file, write_run_file};

const LEAST: usize = 196;

fn vectors() -> Folder {
    Folder::named("HALL_VECTORS", "../vectors", LEAST)
}

#[test]
fn every_run_gives_its_listing() {
    vectors().every_run_gives("out", listing);
}

#[test]
fn every_listing_has_its_run() {
    vectors().every_one_has_its_run("out");
}

/// A run that is read is written back as the file's last bytes.
#[test]
fn every_run_is_written_back() {
    for path in vectors().run_files() {
        let file = bytes_of(&path);
        let Ok((opening, actions)) = read_run_file(&file) else {
            continue;
        };
        let mut written = vec![0; file.len()];
        let length = write_run_file(opening, &actions, &mut written).expect("it fits");
        assert!(file.ends_with(&written[..length]), "{}", path.display());
    }
}
