//! The driver itself, linked with the reading in the library's place: that it
//! hands on what it is given, and that its guard shows what it should.

use std::path::{Path, PathBuf};
use std::process::Command;
use std::sync::OnceLock;

const COMPARE: &str = env!("CARGO_BIN_EXE_compare");
const MADE: &str = env!("CARGO_TARGET_TMPDIR");

/// Driver and probe, built from the one source by the C compiler that cargo
/// links with.
fn drivers() -> &'static [PathBuf; 2] {
    static DRIVERS: OnceLock<[PathBuf; 2]> = OnceLock::new();
    DRIVERS.get_or_init(|| [build("driver", &[]), build("probe", &["-DPROBE"])])
}

fn build(name: &str, define: &[&str]) -> PathBuf {
    let archive = Path::new(COMPARE).with_file_name("examples/libstand_in.a");
    assert!(
        archive.exists(),
        "cargo test without a choice builds the archive"
    );
    let made = Path::new(MADE).join(name);
    let output = Command::new("cc")
        .args([
            "-std=c11",
            "-Wall",
            "-Wextra",
            "-Werror",
            "-pedantic",
            "-O2",
        ])
        .args(define)
        .arg("-o")
        .arg(&made)
        .arg(concat!(env!("CARGO_MANIFEST_DIR"), "/driver.c"))
        .arg(&archive)
        .args(["-lpthread", "-ldl", "-lm"])
        .output()
        .expect("cc runs");
    assert!(
        output.status.success(),
        "{}",
        String::from_utf8_lossy(&output.stderr)
    );
    made
}

/// Compares with this fault.
fn compare(options: &[&str], fault: &str) -> (Option<i32>, String) {
    let [driver, probe] = drivers();
    let output = Command::new(COMPARE)
        .env("TMPDIR", MADE)
        .env("STAND_IN", fault)
        .args(options)
        .arg("--")
        .arg(driver)
        .arg("--")
        .arg(probe)
        .output()
        .expect("compare runs");
    let text = String::from_utf8(output.stdout).expect("text");
    (output.status.code(), text)
}

#[test]
fn no_difference() {
    for options in [&["--files", "1500"][..], &["--guard"]] {
        let (code, text) = compare(options, "");
        assert_eq!(code, Some(0), "{text}");
        for call in ["within", "claims", "record", "first", "sheet", "counted"] {
            assert!(text.contains(&format!("\n{call} ")), "{text}");
        }
    }
}

#[test]
fn faults_about_memory_are_found() {
    for (fault, guard, words) in [
        ("reads-after-file", "after", "SIGSEGV"),
        ("reads-before-file", "before", "SIGSEGV"),
        ("reads-after-table", "after", "SIGSEGV"),
        ("writes-after-findings", "after", "SIGSEGV"),
        ("writes-before-verdicts", "before", "SIGSEGV"),
        ("writes-after-out", "after", "SIGSEGV"),
        ("reads-after-record", "after", "SIGSEGV"),
        ("reads-before-record", "before", "SIGSEGV"),
        ("reads-three-bytes", "after", "SIGSEGV"),
        ("probe-reads-after-file", "after", "SIGSEGV"),
        ("first-reads-after-file", "after", "SIGSEGV"),
        ("first-reads-before-file", "before", "SIGSEGV"),
        ("first-reads-after-table", "after", "SIGSEGV"),
        ("first-reads-before-table", "before", "SIGSEGV"),
        ("first-changes-file", "after", "is changed"),
        ("first-changes-table", "after", "is changed"),
        ("sheet-reads-after-file", "after", "SIGSEGV"),
        ("sheet-reads-before-file", "before", "SIGSEGV"),
        ("sheet-reads-after-table", "after", "SIGSEGV"),
        ("sheet-reads-before-table", "before", "SIGSEGV"),
        ("sheet-writes-after-sheet", "after", "SIGSEGV"),
        ("sheet-writes-before-sheet", "before", "SIGSEGV"),
        ("sheet-reads-first-number", "after", "SIGSEGV"),
        ("sheet-reads-last-number", "after", "SIGSEGV"),
        ("sheet-changes-file", "after", "is changed"),
        ("sheet-changes-table", "after", "is changed"),
        ("claims-reads-after-file", "after", "SIGSEGV"),
        ("claims-reads-before-file", "before", "SIGSEGV"),
        ("claims-reads-after-table", "after", "SIGSEGV"),
        ("claims-reads-after-territories", "after", "SIGSEGV"),
        ("claims-reads-before-territories", "before", "SIGSEGV"),
        ("claims-reads-first-territory", "after", "SIGSEGV"),
        ("claims-reads-after-list", "after", "SIGSEGV"),
        ("claims-writes-after-list", "after", "SIGSEGV"),
        ("claims-writes-before-list", "before", "SIGSEGV"),
        ("claims-writes-first-entry", "after", "SIGSEGV"),
        ("claims-writes-after-verdicts", "after", "SIGSEGV"),
        ("claims-writes-before-findings", "before", "SIGSEGV"),
        ("claims-writes-after-over", "after", "SIGSEGV"),
        ("claims-writes-before-over", "before", "SIGSEGV"),
        ("claims-reads-eight-of-over", "after", "SIGSEGV"),
        ("claims-changes-file", "after", "is changed"),
        ("claims-changes-table", "after", "is changed"),
        ("claims-changes-territories", "after", "is changed"),
        ("changes-file", "after", "is changed"),
        ("changes-table", "after", "is changed"),
        ("changes-record", "after", "is changed"),
    ] {
        let (code, text) = compare(&["--guard"], fault);
        assert_eq!(code, Some(1), "{fault}: {text}");
        assert!(text.starts_with("difference\n"), "{fault}: {text}");
        assert!(
            text.contains("  seed  ") && text.contains(words),
            "{fault}: {text}"
        );
        assert!(
            text.contains(&format!("  guard      {guard}\n")),
            "{fault}: {text}"
        );
    }
}
