//! The library's C interface with the reading behind it, as an archive that
//! the driver can be linked with, to try the driver itself. The variable
//! STAND_IN names a fault about memory, which the driver's guard must show.

use std::slice::{from_raw_parts, from_raw_parts_mut};

use tests::reference::claims::{Room, ENTRY};
use tests::reference::lent::SHORT_TOLERANCE;
use tests::reference::{self, findings, Answer, Tables};

fn fault(name: &str) -> bool {
    std::env::var_os("STAND_IN").is_some_and(|wanted| wanted == name)
}

/// Reads a byte for nothing.
unsafe fn look(at: *const u8) {
    std::ptr::read_volatile(at);
}

/// # Safety
/// Each pointer is that of as many bytes as the length after it says; so for
/// all of these calls.
#[no_mangle]
#[allow(clippy::too_many_arguments)]
pub unsafe extern "C" fn cwr_check_within(
    tolerance: u64,
    file: *const u8,
    file_len: usize,
    languages: *const u8,
    languages_len: usize,
    societies: *const u8,
    societies_len: usize,
    categories: *const u8,
    categories_len: usize,
    verdicts: *mut u8,
    verdicts_len: usize,
    findings: *mut u8,
    findings_len: usize,
) -> u64 {
    let tables = Tables {
        languages: from_raw_parts(languages, languages_len),
        societies: from_raw_parts(societies, societies_len),
        categories: from_raw_parts(categories, categories_len),
    };
    let answer = reference::check(
        tolerance,
        from_raw_parts(file, file_len),
        &tables,
        from_raw_parts_mut(verdicts, verdicts_len),
        from_raw_parts_mut(findings, findings_len),
    );
    if fault("reads-after-file") {
        look(file.add(file_len));
    }
    if fault("reads-before-file") {
        look(file.sub(1));
    }
    if fault("reads-after-table") {
        look(categories.add(categories_len));
    }
    if fault("writes-after-findings") {
        findings.add(findings_len).write_volatile(0);
    }
    if fault("writes-before-verdicts") {
        verdicts.sub(1).write_volatile(0);
    }
    if fault("changes-file") && file_len > 0 {
        file.add(file_len - 1).cast_mut().write_volatile(0);
    }
    if fault("changes-table") && societies_len > 0 {
        societies.cast_mut().write_volatile(0);
    }
    answer.packed()
}

/// # Safety
/// As above.
#[no_mangle]
#[allow(clippy::too_many_arguments)]
pub unsafe extern "C" fn cwr_check(
    file: *const u8,
    file_len: usize,
    languages: *const u8,
    languages_len: usize,
    societies: *const u8,
    societies_len: usize,
    categories: *const u8,
    categories_len: usize,
    verdicts: *mut u8,
    verdicts_len: usize,
    findings: *mut u8,
    findings_len: usize,
) -> u64 {
    cwr_check_within(
        SHORT_TOLERANCE,
        file,
        file_len,
        languages,
        languages_len,
        societies,
        societies_len,
        categories,
        categories_len,
        verdicts,
        verdicts_len,
        findings,
        findings_len,
    )
}

/// # Safety
/// As above; and the claims are so many entries.
#[no_mangle]
#[allow(clippy::too_many_arguments)]
pub unsafe extern "C" fn cwr_check_claims(
    tolerance: u64,
    file: *const u8,
    file_len: usize,
    languages: *const u8,
    languages_len: usize,
    societies: *const u8,
    societies_len: usize,
    categories: *const u8,
    categories_len: usize,
    territories: *const u8,
    territories_len: usize,
    claims: *mut [u32; 6],
    claims_count: usize,
    verdicts: *mut u8,
    verdicts_len: usize,
    findings: *mut u8,
    findings_len: usize,
    over: *mut u8,
    over_len: usize,
) -> u64 {
    let tables = Tables {
        languages: from_raw_parts(languages, languages_len),
        societies: from_raw_parts(societies, societies_len),
        categories: from_raw_parts(categories, categories_len),
    };
    // Where they begin, numbers of four bytes must be able to.
    assert!(claims.is_aligned());
    let answer = reference::check_claims(
        tolerance,
        from_raw_parts(file, file_len),
        &tables,
        from_raw_parts(territories, territories_len),
        Room {
            list: from_raw_parts_mut(claims.cast(), ENTRY * claims_count),
            verdicts: from_raw_parts_mut(verdicts, verdicts_len),
            findings: from_raw_parts_mut(findings, findings_len),
            over: from_raw_parts_mut(over, over_len),
        },
    );
    if fault("claims-reads-after-file") {
        look(file.add(file_len));
    }
    if fault("claims-reads-before-file") {
        look(file.sub(1));
    }
    if fault("claims-reads-after-table") {
        look(languages.add(languages_len));
    }
    if fault("claims-reads-after-territories") {
        look(territories.add(territories_len));
    }
    if fault("claims-reads-before-territories") {
        look(territories.sub(1));
    }
    if fault("claims-reads-first-territory") {
        look(territories.add(5));
    }
    if fault("claims-reads-after-list") {
        look(claims.add(claims_count).cast());
    }
    if fault("claims-writes-after-list") {
        claims.add(claims_count).cast::<u8>().write_volatile(0);
    }
    // Where there are none, it is an edge before which the end lies too.
    if fault("claims-writes-before-list") && claims_count > 0 {
        claims.cast::<u32>().sub(1).write_volatile(0);
    }
    if fault("claims-writes-first-entry") {
        claims.cast::<u32>().write_volatile(0);
    }
    if fault("claims-writes-after-verdicts") {
        verdicts.add(verdicts_len).write_volatile(0);
    }
    if fault("claims-writes-before-findings") {
        findings.sub(1).write_volatile(0);
    }
    if fault("claims-writes-after-over") {
        over.add(over_len).write_volatile(0);
    }
    if fault("claims-writes-before-over") {
        over.sub(1).write_volatile(0);
    }
    if fault("claims-reads-eight-of-over") {
        look(over.add(7));
    }
    if fault("claims-changes-file") && file_len > 0 {
        file.cast_mut().write_volatile(0);
    }
    if fault("claims-changes-table") && societies_len > 0 {
        societies.cast_mut().write_volatile(0);
    }
    if fault("claims-changes-territories") && territories_len > 0 {
        let last = territories.add(territories_len - 1).cast_mut();
        last.write_volatile(!last.read());
    }
    answer.packed()
}

/// # Safety
/// As above.
#[no_mangle]
#[allow(clippy::too_many_arguments)]
pub unsafe extern "C" fn cwr_first_rejected(
    tolerance: u64,
    file: *const u8,
    file_len: usize,
    languages: *const u8,
    languages_len: usize,
    societies: *const u8,
    societies_len: usize,
    categories: *const u8,
    categories_len: usize,
) -> u64 {
    let tables = Tables {
        languages: from_raw_parts(languages, languages_len),
        societies: from_raw_parts(societies, societies_len),
        categories: from_raw_parts(categories, categories_len),
    };
    let first = reference::first_rejected(tolerance, from_raw_parts(file, file_len), &tables);
    if fault("first-reads-after-file") {
        look(file.add(file_len));
    }
    if fault("first-reads-before-file") {
        look(file.sub(1));
    }
    if fault("first-reads-after-table") {
        look(languages.add(languages_len));
    }
    if fault("first-reads-before-table") {
        look(societies.sub(1));
    }
    if fault("first-changes-file") && file_len > 0 {
        file.cast_mut().write_volatile(0);
    }
    if fault("first-changes-table") && categories_len > 0 {
        categories.cast_mut().write_volatile(0);
    }
    first.packed()
}

/// # Safety
/// As above.
#[no_mangle]
#[allow(clippy::too_many_arguments)]
pub unsafe extern "C" fn cwr_sheet_add(
    sheet: *mut u8,
    sheet_len: usize,
    file: *const u8,
    file_len: usize,
    languages: *const u8,
    languages_len: usize,
    societies: *const u8,
    societies_len: usize,
    categories: *const u8,
    categories_len: usize,
) -> u64 {
    let tables = Tables {
        languages: from_raw_parts(languages, languages_len),
        societies: from_raw_parts(societies, societies_len),
        categories: from_raw_parts(categories, categories_len),
    };
    let answer = reference::sheet_add(
        from_raw_parts_mut(sheet, sheet_len),
        from_raw_parts(file, file_len),
        &tables,
    );
    if fault("sheet-reads-after-file") {
        look(file.add(file_len));
    }
    if fault("sheet-reads-before-file") {
        look(file.sub(1));
    }
    if fault("sheet-reads-after-table") {
        look(societies.add(societies_len));
    }
    if fault("sheet-reads-before-table") {
        look(categories.sub(1));
    }
    if fault("sheet-writes-after-sheet") {
        sheet.add(sheet_len).write_volatile(0);
    }
    if fault("sheet-writes-before-sheet") {
        sheet.sub(1).write_volatile(0);
    }
    if fault("sheet-reads-first-number") {
        look(sheet.add(7));
    }
    if fault("sheet-reads-last-number") {
        look(sheet.add(reference::sheet::BYTES - 1));
    }
    if fault("sheet-changes-file") && file_len > 0 {
        file.cast_mut().write_volatile(0);
    }
    if fault("sheet-changes-table") && languages_len > 0 {
        languages.cast_mut().write_volatile(0);
    }
    answer.packed()
}

/// # Safety
/// As above.
#[no_mangle]
pub unsafe extern "C" fn cwr_number(
    file: *const u8,
    file_len: usize,
    out: *mut u8,
    out_len: usize,
) -> u64 {
    if fault("writes-after-out") {
        out.add(out_len).write_volatile(0);
    }
    let (file, out) = (
        from_raw_parts(file, file_len),
        from_raw_parts_mut(out, out_len),
    );
    reference::numbering(file, out).packed()
}

#[no_mangle]
pub extern "C" fn cwr_findings_count(set: u64) -> u32 {
    findings::count(set)
}

#[no_mangle]
pub extern "C" fn cwr_findings_lowest(set: u64) -> u32 {
    findings::lowest(set)
}

/// # Safety
/// As above.
#[no_mangle]
pub unsafe extern "C" fn cwr_record_length(record: *const u8, len: usize) -> u32 {
    if fault("reads-after-record") {
        look(record.add(len));
    }
    if fault("reads-before-record") {
        look(record.sub(1));
    }
    if fault("reads-three-bytes") {
        look(record.add(2));
    }
    if fault("changes-record") && len > 0 {
        record.cast_mut().write_volatile(0);
    }
    reference::record_length(from_raw_parts(record, len))
}

/// # Safety
/// As above.
#[no_mangle]
pub unsafe extern "C" fn probe_structure(file: *const u8, len: usize) -> u64 {
    if fault("probe-reads-after-file") {
        look(file.add(len));
    }
    reference::structure(from_raw_parts(file, len)).packed()
}

/// # Safety
/// As above.
#[no_mangle]
pub unsafe extern "C" fn probe_groups(file: *const u8, len: usize) -> u64 {
    match reference::structure(from_raw_parts(file, len)) {
        Answer::Passed { groups, .. } => groups,
        Answer::Refused { .. } => 0,
    }
}

/// # Safety
/// As above.
#[no_mangle]
pub unsafe extern "C" fn probe_transactions(file: *const u8, len: usize) -> u64 {
    match reference::structure(from_raw_parts(file, len)) {
        Answer::Passed { transactions, .. } => transactions,
        Answer::Refused { .. } => 0,
    }
}

/// # Safety
/// As above.
#[no_mangle]
pub unsafe extern "C" fn probe_number(
    file: *const u8,
    len: usize,
    out: *mut u8,
    out_len: usize,
) -> u64 {
    reference::numbering(from_raw_parts(file, len), from_raw_parts_mut(out, out_len)).packed()
}
