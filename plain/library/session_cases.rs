//! Runs every session case and compares what it prints, line by line, with what the proved program prints.
use std::path::Path;
use std::process::Command;

#[test]
fn every_session_case_gives_what_is_expected() {
    let folder = Path::new(env!("CARGO_MANIFEST_DIR"));
    let done = Command::new(env!("CARGO_BIN_EXE_session_cases"))
        .current_dir(folder.join("data"))
        .output()
        .expect("session_cases runs");
    let expected = std::fs::read_to_string(folder.join("expected")).expect("expected is there");
    let printed = String::from_utf8(done.stdout).expect("text");
    let differs = printed.lines().zip(expected.lines()).find(|(came, wanted)| came != wanted);
    assert_eq!(differs, None, "the first line that differs: what came, and what was expected");
    assert_eq!(printed.lines().count(), expected.lines().count(), "the number of lines");
    assert!(done.status.success(), "{}", String::from_utf8_lossy(&done.stderr));
}
