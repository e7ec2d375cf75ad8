//! `compare` against the mock: no difference without a fault, one with each.

use std::process::{Command, Output};
use std::sync::atomic::{AtomicUsize, Ordering};

const COMPARE: &str = env!("CARGO_BIN_EXE_compare");
const MOCK: &str = env!("CARGO_BIN_EXE_mock");

/// The files of the differences that are found are written here.
const FOUND: &str = env!("CARGO_TARGET_TMPDIR");

fn compare(options: &[&str], mock: &[&str], listing: bool) -> (Option<i32>, String) {
    compare_in(FOUND, options, mock, listing)
}

/// `compare` with the mock in the place of each program; the files of the
/// differences are written there.
fn compare_in(
    found: &str,
    options: &[&str],
    mock: &[&str],
    listing: bool,
) -> (Option<i32>, String) {
    let mut command = Command::new(COMPARE);
    command.env("TMPDIR", found).args(options);
    for _ in ["driver", "probe"] {
        command.args(["--", MOCK]).args(mock);
    }
    if listing {
        command.args(["--", MOCK, "--listing"]).args(mock);
    }
    let Output { status, stdout, .. } = command.output().expect("compare runs");
    let text = String::from_utf8(stdout).expect("text");
    (status.code(), text)
}

/// What stands after a word at the start of a line.
fn entry<'a>(text: &'a str, name: &str) -> &'a str {
    let line = text.lines().find_map(|line| line.trim().strip_prefix(name));
    line.unwrap_or_else(|| panic!("no {name} in\n{text}"))
        .trim()
}

#[test]
fn no_difference_without_a_fault() {
    let (code, text) = compare(&[], &[], true);
    assert_eq!(code, Some(0), "{text}");
    assert_eq!(
        text.lines().last(),
        Some("compared 20000 files, no difference")
    );
    let (code, text) = compare(&["--files", "50", "--seed", "77"], &[], true);
    assert_eq!(code, Some(0), "{text}");
    assert_eq!(
        text.lines().last(),
        Some("compared 50 files, no difference")
    );
    let (code, text) = compare(&["--guard"], &[], true);
    assert_eq!(code, Some(0), "{text}");
    // One for the listing program alone is among them only for its records.
    assert!(text.ends_with(" files, no difference\n") && !text.contains("\nlisting"));
}

#[test]
fn one_call_alone() {
    // A fault of another call is not met.
    let run = ["--files", "2000", "--only"];
    for (call, fault) in [
        ("structure", "copies"),
        ("number", "writes-nothing"),
        ("check", "bits-highest"),
        ("bits", "record-8-bits"),
        ("record", "refuses-everything"),
        ("first", "writes-nothing"),
        ("sheet", "first-none-0"),
        ("within", "sheet-afresh"),
        ("check", "claims-over-none-0"),
        ("claims", "without-a-table-48"),
    ] {
        let options: Vec<_> = run.into_iter().chain([call]).collect();
        let (code, text) = compare(&options, &["--fault", fault], true);
        assert_eq!(code, Some(0), "{text}");
        let others = [
            "check",
            "within",
            "claims",
            "number",
            "bits",
            "record",
            "first",
            "sheet",
            "structure",
            "counted",
            "listing",
        ];
        for other in others.iter().filter(|&&other| other != call) {
            let of_other = |line: &str| line.starts_with(&format!("{other} "));
            assert!(!text.lines().any(of_other), "{call}: {text}");
        }
    }
}

/// The calls of a program that is left out are not compared.
#[test]
fn programs_left_out() {
    let run = |programs: &[&str]| {
        let mut command = Command::new(COMPARE);
        command.args(["--files", "300"]).args(programs);
        let output = command.output().expect("compare runs");
        (
            output.status.code(),
            String::from_utf8(output.stdout).expect("text"),
        )
    };
    let (code, text) = run(&["--", MOCK]);
    assert_eq!(code, Some(0), "{text}");
    assert!(
        text.contains("\ncheck ") && !text.contains("\nstructure "),
        "{text}"
    );
    let (code, text) = run(&["--", "--", MOCK]);
    assert_eq!(code, Some(0), "{text}");
    assert!(
        !text.contains("\ncheck ") && text.contains("\nstructure "),
        "{text}"
    );
    let (code, text) = run(&["--", "--", "--", MOCK, "--listing"]);
    assert_eq!(code, Some(0), "{text}");
    assert!(
        !text.contains("\nstructure ") && text.contains("\nlisting "),
        "{text}"
    );
}

fn faults() -> Vec<String> {
    let output = Command::new(MOCK).arg("--faults").output();
    let text = String::from_utf8(output.expect("mock runs").stdout).expect("text");
    text.lines().map(String::from).collect()
}

/// Each fault of the mock, two at a time.
#[test]
fn each_fault_is_found() {
    let (faults, next) = (faults(), AtomicUsize::new(0));
    assert!(faults.len() >= 738, "{}", faults.len());
    // Each finding has one that begins with its number.
    for finding in 0..=48 {
        let own = |fault: &String| fault.starts_with(&format!("{finding}-"));
        assert!(faults.iter().any(own), "none of finding {finding}");
    }
    std::thread::scope(|scope| {
        for _ in 0..2 {
            scope.spawn(|| loop {
                let number = next.fetch_add(1, Ordering::SeqCst);
                match faults.get(number) {
                    Some(fault) => is_found(number, fault),
                    None => break,
                }
            });
        }
    });
}

fn is_found(number: usize, fault: &str) {
    // Each in a directory of its own: the same file may show several.
    let found = format!("{FOUND}/{number}");
    std::fs::create_dir_all(&found).expect("a directory");
    let listing = fault.starts_with("listing");
    let mut options = vec!["--workers", "1"];
    let of_sheet = fault.starts_with("sheet");
    let of_claims = ["claims", "47-", "48-"]
        .iter()
        .any(|name| fault.starts_with(name));
    // What is read off the findings of the check is compared without this; and
    // other calls need not be asked before.
    if fault.starts_with("first: ") {
        options.extend(["--only", "first"]);
    } else if of_sheet {
        options.extend(["--only", "sheet"]);
    } else if of_claims {
        options.extend(["--only", "claims"]);
    }
    match fault {
        "hangs" => options.extend(["--wait", "2"]),
        _ if fault.ends_with(", large") => options.push("--limits"),
        _ if fault.ends_with(", guarded") => options.push("--guard"),
        _ if listing => options.extend(["--only", "listing"]),
        _ => {}
    }
    let mock = ["--fault", fault];
    let (code, text) = compare_in(&found, &options, &mock, listing);
    assert_eq!(code, Some(1), "{fault}: {text}");
    assert!(text.starts_with("difference\n"), "{fault}: {text}");
    let of_first = fault.starts_with("first") && fault != "first-transaction-only";
    assert_eq!(of_first, entry(&text, "call") == "first", "{fault}: {text}");
    assert_eq!(of_sheet, entry(&text, "call") == "sheet", "{fault}: {text}");
    assert_eq!(
        of_claims,
        entry(&text, "call") == "claims",
        "{fault}: {text}"
    );
    // The file that was written is the one whose seed is named.
    let written = std::fs::read(entry(&text, "file")).expect("the file");
    let seed = entry(&text, "seed");
    let made = tests::generate::case(seed.parse().expect("a number")).expect("a case");
    assert_eq!(made.kind, entry(&text, "kind"));
    assert!(made.file == written, "{fault}");
    // The seed alone brings the difference again, with the sheet that it was
    // added to; tried for some.
    if number % 4 == 0 && fault != "sheet-second-sheet" {
        options.retain(|option| *option != "--limits");
        options.extend(["--one", seed]);
        if of_sheet {
            options.extend(["--sheet", entry(&text, "sheet")]);
        }
        let (code, again) = compare_in(&found, &options, &mock, listing);
        assert_eq!(code, Some(1), "{fault}: {again}");
        assert!(again.contains("difference\n"), "{fault}: {again}");
    }
    println!("{fault}: found, {} \"{}\"", entry(&text, "call"), made.kind);
    std::fs::remove_dir_all(&found).expect("the directory");
}

/// A difference names the tolerance that its call has, lent or its own.
#[test]
fn tolerances_are_named() {
    for (fault, call, tolerances) in [
        ("short-form-6", "check", &["0"][..]),
        ("short-form-refuses-1", "check", &["0"]),
        (
            "tolerance-always-0",
            "within",
            &["1", "2", "3", "4", "5", "6"],
        ),
        ("tolerance-7", "within", &["7"]),
        (
            "first-tolerance-always-6",
            "first",
            &["0", "1", "2", "3", "4", "5"],
        ),
        (
            "claims: tolerance-always-0",
            "claims",
            &["1", "2", "3", "4", "5", "6"],
        ),
        (
            "47-tolerance-always-6",
            "claims",
            &["0", "1", "2", "3", "4", "5"],
        ),
        ("sheet-tolerance-0", "sheet", &["6"]),
        ("listing-tolerance-0", "listing", &["6"]),
    ] {
        let (code, text) = compare(&["--only", call], &["--fault", fault], true);
        assert_eq!(code, Some(1), "{fault}: {text}");
        assert!(tolerances.contains(&entry(&text, "tolerance")), "{text}");
    }
    // Numbering has none.
    let (code, text) = compare(&["--only", "number"], &["--fault", "copies"], false);
    assert_eq!(code, Some(1), "{text}");
    assert!(!text.contains("tolerance"), "{text}");
}

/// A difference of `first` tells what the library's own findings say.
#[test]
fn first_is_read_off_the_findings() {
    for (fault, right, wrong) in [
        ("first-last", "passed: transaction ", "passed: transaction "),
        (
            "first-within-its-group",
            "passed: transaction ",
            "passed: transaction ",
        ),
        (
            "first-none-0",
            "passed: no transaction",
            "passed: transaction 0",
        ),
        (
            "first-with-fr",
            "passed: no transaction",
            "passed: transaction ",
        ),
    ] {
        let (code, text) = compare(&[], &["--fault", fault], false);
        assert_eq!(code, Some(1), "{fault}: {text}");
        let [reference, read_off, library] =
            ["reference", "read off", "library"].map(|name| entry(&text, name));
        assert_eq!(reference, read_off, "{text}");
        assert!(reference.starts_with(right), "{text}");
        assert!(library.starts_with(wrong) && library != reference, "{text}");
        // Without the check there is nothing to read.
        let (code, text) = compare(&["--only", "first"], &["--fault", fault], false);
        assert_eq!(code, Some(1), "{fault}: {text}");
        assert!(!text.contains("read off"), "{text}");
    }
}

/// A difference of `claims` tells what is lent besides, what is over, and where
/// that is not the first of the library's own findings.
#[test]
fn claims_are_told() {
    for (fault, reference, library, read_off) in [
        (
            "claims-over-none-0",
            "nothing over",
            "over in transaction 0, territory 0",
            Some("over first: 4294967295"),
        ),
        (
            "claims-over-last-transaction",
            "over in transaction ",
            "over in transaction ",
            Some("over first: "),
        ),
        (
            "claims-over-last-territory",
            "over in transaction ",
            "over in transaction ",
            None,
        ),
        ("48-not-for-the-mark", "passed: ", "passed: ", None),
        ("claims-14-never", "refused 14 at ", "passed: ", None),
    ] {
        let options = ["--only", "claims", "--workers", "1"];
        let (code, text) = compare(&options, &["--fault", fault], false);
        assert_eq!(code, Some(1), "{fault}: {text}");
        assert!(entry(&text, "reference").contains(reference), "{text}");
        assert!(entry(&text, "library").contains(library), "{text}");
        assert!(entry(&text, "territories").contains(" bytes: \""), "{text}");
        assert!(
            text.contains("  claims     a list of ") && text.contains("  over       8 bytes\n"),
            "{text}"
        );
        match read_off {
            Some(words) => assert!(entry(&text, "read off").starts_with(words), "{text}"),
            None => assert!(!text.contains("read off"), "{text}"),
        }
    }
}

/// A difference of a carried sheet tells where its verdicts are not those of the
/// records passed, and which number is another.
#[test]
fn sheets_are_read_off() {
    for (fault, read_off, number) in [
        ("sheet-control-records-not-counted", true, "verdict 0"),
        ("sheet-verdict-4-left-out", true, "verdict 4"),
        ("sheet-verdict-4-not-raised", false, "verdict 0"),
        ("sheet-without-sign", false, "PR differences"),
        ("sheet-findings-on-headers", false, "finding "),
        ("sheet-refused-not-counted", false, "files refused"),
    ] {
        let options = ["--only", "sheet", "--workers", "1"];
        let (code, text) = compare(&options, &["--fault", fault], false);
        assert_eq!(code, Some(1), "{fault}: {text}");
        assert!(entry(&text, "number").contains(number), "{fault}: {text}");
        assert_eq!(text.contains("read off"), read_off, "{fault}: {text}");
        if read_off {
            let words: Vec<_> = entry(&text, "read off").split(' ').collect();
            assert_eq!(
                [words[0], words[1], words[3]],
                ["verdicts", "of", "records,"]
            );
            assert_ne!(words[2], words[4], "{text}");
        }
    }
}

/// A list by itself: in another order, the sheet must be the same.
#[test]
fn lists_in_another_order() {
    let lists = tests::generate::seeds(0, 20_000).into_iter();
    let mut lists = lists.filter_map(tests::generate::case);
    let list = lists.find(|case| !case.list.is_empty()).expect("a list");
    let seed = list.seed.to_string();
    let options = ["--one", &seed];
    let (code, text) = compare(&options, &[], false);
    assert_eq!(code, Some(0), "{text}");
    let (code, text) = compare(&options, &["--fault", "sheet-second-sheet"], false);
    assert_eq!(code, Some(1), "{text}");
    assert!(
        text.contains("  library    from the list's end, the sheet is another\n"),
        "{text}"
    );
    assert!(entry(&text, "number").contains("verdict 4"), "{text}");
}

#[test]
fn what_cannot_be_compared() {
    let run = |arguments: &[&str]| {
        let mut command = Command::new(COMPARE);
        let output = command.env("TMPDIR", FOUND).args(arguments).output();
        output.expect("compare runs").status.code()
    };
    assert_eq!(run(&[]), Some(2));
    assert_eq!(run(&["--files", "x", "--", MOCK]), Some(2));
    assert_eq!(run(&["--", "no-such-driver"]), Some(2));
    assert_eq!(
        run(&["--", MOCK, "--", MOCK, "--", MOCK, "--", MOCK]),
        Some(2)
    );
    assert_eq!(run(&["--one", "16000000", "--", MOCK]), Some(2));
    assert_eq!(run(&["--only", "x", "--", MOCK]), Some(2));
    // A sheet without its file, and one that there is none of.
    assert_eq!(run(&["--sheet", MOCK, "--", MOCK]), Some(2));
    assert_eq!(
        run(&["--one", "1", "--sheet", "no-such-sheet", "--", MOCK]),
        Some(2)
    );
    // A file that is made for numbering.
    let alone = ["--one", "1", "--only", "structure", "--", MOCK, "--", MOCK];
    assert_eq!(run(&alone), Some(2));
    // A driver that ends before its first answer.
    assert_eq!(run(&["--files", "5", "--", MOCK, "--faults"]), Some(1));
    // A listing program that there is none of.
    let none = [
        "--only",
        "listing",
        "--",
        MOCK,
        "--",
        MOCK,
        "--",
        "no-such-program",
    ];
    assert_eq!(run(&none), Some(1));
}
