//! What the example `three` leaves can be audited, as the crate's page says.
#![forbid(unsafe_code)]

mod common;
#[allow(dead_code)]
#[path = "../examples/three.rs"]
mod three;

use common::audited;
use std::fs;
use std::path::PathBuf;

#[test]
fn the_logs_of_the_example_are_accepted() {
    let folder = std::env::temp_dir().join(format!("epaxos-audited-{}", std::process::id()));
    let folders: Vec<PathBuf> = (0..3).map(|me| folder.join(me.to_string())).collect();
    for starts in 1..=2 {
        three::run(&folder).unwrap();
        let report = audited(&folders);
        assert!(report.starts_with("verdict accepted\ngeneration 1 since 0\n"), "{report}");
        assert!(report.contains(&format!("\nreceipts {}\n", 300 * starts)), "{report}");
    }
    // a receipt of something else isn't accepted
    let path = folders[0].join("receipts");
    let mut receipts = fs::read(&path).unwrap();
    receipts[3] = 9; // (the client)
    fs::write(&path, receipts).unwrap();
    assert!(audited(&folders).starts_with("verdict refused\nA4 unknown receipt 1\n"));
    fs::remove_dir_all(folder).unwrap();
}
