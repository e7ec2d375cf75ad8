//! Finding 8.

use super::*;

/// Whether these details, behind a header, are out of order.
fn out_of_order(names: &str) -> bool {
    let mut work = vec![nwr("")];
    work.extend(names.split_whitespace().map(detail));
    judge(&work)[0].contains(&8)
}

#[test]
fn right_orders() {
    for names in [
        "",
        "SPU NPN SPT OPT OPU NPN OPT SWR NWN SWT PWR OWR NWN OWT PWR ALT NAT EWT NET NOW VER NVT \
         NOW PER NPR REC ORN INS IND COM NCT NOW ARI XRF",
        // SPT and OPT mixed; bracketed types missing or repeated.
        "SPU OPT SPT OPT SPT",
        "SPU NPN NPN SPT SPU SPU NPN",
        "OPU OPT OPT OPU NPN OPT",
        "SWR PWR PWR SWR NWN NWN PWR SWR SWT",
        "OWR OWT PWR OWR NWN",
        // Leaders repeat freely in their stage.
        "ALT ALT NAT NAT REC REC ORN ORN ARI ARI XRF XRF",
        "EWT NOW EWT NET VER NOW VER NVT",
        "COM NOW NOW COM NCT COM",
        // NPR and IND without a leader; then PER or INS may follow.
        "NPR NPR PER NPR",
        "SWR NPR REC",
        "IND IND INS IND",
        "NPR IND XRF",
        "PER IND",
        // As if not there.
        "TER SPU TER SPT MSG NPA IPA SPT",
        "SWR MSG NWN",
        "XRF TER",
    ] {
        assert!(!out_of_order(names), "{names}");
    }
}

#[test]
fn wrong_orders() {
    for names in [
        "OPU SPU",
        "SWR SPU",
        "OWR SWR",
        "XRF ARI",
        "NAT ALT",
        "REC PER",
        "REC NPR",
        "COM IND",
        "XRF IND",
        "IND PER",
        "NPR VER",
        // Not back within one leader.
        "SPU SPT NPN",
        "OPU OPT NPN",
        "SWR PWR SWT",
        "SWR SWT NWN",
        "EWT NOW NET",
        "COM NOW NCT",
        // Not of this leader, or without any.
        "OPU SPT",
        "SPU OPU SPT",
        "SWR OWT",
        "OWR SWT",
        "NPN",
        "SPT",
        "OPT",
        "NWN",
        "SWT",
        "PWR",
        "NET",
        "NOW",
        "NVT",
        "NCT",
        "ALT NOW",
        "EWT NVT",
        "VER NET",
        "EWT NCT",
        "PER NOW",
        "SWR ALT PWR",
        "SPU TER SPT MSG NPN",
    ] {
        assert!(out_of_order(names), "{names}");
    }
}
