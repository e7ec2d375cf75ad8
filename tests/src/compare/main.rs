//! Compares the library, behind its drivers, with the reference over made
//! files.

mod difference;
mod options;
mod sheets;
mod tally;

use std::process::ExitCode;
use std::sync::atomic::{AtomicUsize, Ordering};
use std::sync::Mutex;

use options::Options;
use sheets::Carried;
use tally::{Tally, TOO_LONG};
use tests::calls::{describe_first, expected, Call, Guard, Program, Reply, Request};
use tests::driver::{list, Driver};
use tests::generate::{case, limits, seeds, spread, Case};
use tests::read_off::{first_over, first_rejected};
use tests::reference;

/// So many files at a time; one sheet is carried over them. Few, since the last
/// ones are large, and most of the largest figures of a sheet come from its
/// first files. There are longer lists besides.
const AT_A_TIME: usize = 4;

/// Why a run, or a part of it, ended early.
enum Stop {
    Difference(String),
    /// Nothing could be compared.
    Failed(String),
}

fn main() -> ExitCode {
    let options = options::options();
    let seeds: Vec<u64> = match options.one {
        Some(seed) => vec![seed],
        None if options.limits => limits(),
        None if options.guard => spread(options.run, options.files()),
        None => seeds(options.run, options.files()),
    };
    let parts: Vec<&[u64]> = seeds.chunks(AT_A_TIME).collect();
    let (next, tally) = (AtomicUsize::new(0), Mutex::new(Tally::new()));
    // The stops, with how far the run had come.
    let stops: Mutex<Vec<(usize, Stop)>> = Mutex::default();
    std::thread::scope(|scope| {
        for _ in 0..options.workers.min(parts.len()) {
            scope.spawn(|| {
                let mut mine = Tally::new();
                if let Err(stop) = work(&options, &parts, &next, &mut mine) {
                    // The others end with the files they are at.
                    let at = next.swap(parts.len(), Ordering::SeqCst);
                    stops.lock().expect("stops").push((at, stop));
                }
                tally.lock().expect("tally").add(&mine);
            });
        }
    });
    let mut stops = stops.into_inner().expect("stops");
    stops.sort_by_key(|(at, _)| *at);
    match stops.into_iter().next() {
        Some((_, Stop::Difference(text))) => {
            print!("{text}");
            return ExitCode::FAILURE;
        }
        Some((_, Stop::Failed(text))) => {
            eprintln!("{text}");
            return ExitCode::from(2);
        }
        None => {}
    }
    let tally = tally.into_inner().expect("tally");
    if tally.files == 0 {
        eprintln!("nothing to compare");
        return ExitCode::from(2);
    }
    if !tally.show(&options) {
        println!("no difference, but some answers came up too seldom");
        return ExitCode::FAILURE;
    }
    println!("compared {} files, no difference", tally.files);
    ExitCode::SUCCESS
}

/// Compares the files whose turn it is, with drivers of its own.
fn work(
    options: &Options,
    parts: &[&[u64]],
    next: &AtomicUsize,
    tally: &mut Tally,
) -> Result<(), Stop> {
    let start = |program: Program| match options.command(program) {
        [] => Ok(None),
        command => match Driver::start(command, options.patience) {
            Ok(driver) => Ok(Some(driver)),
            Err(error) => Err(Stop::Failed(format!(
                "{} does not start: {error}",
                command[0]
            ))),
        },
    };
    let mut drivers = [start(Program::Driver)?, start(Program::Probe)?];
    while let Some(seeds) = parts.get(next.fetch_add(1, Ordering::SeqCst)) {
        let mut carried = Carried::fresh();
        for &seed in *seeds {
            let Some(case) = case(seed) else {
                return Err(Stop::Failed(format!("no file has the seed {seed}")));
            };
            compare_case(options, case, &mut drivers, &mut carried, tally)?;
        }
    }
    for driver in drivers.into_iter().flatten() {
        if let Err(how) = driver.end() {
            return Err(Stop::Difference(format!("all answers alike, but {how}\n")));
        }
    }
    Ok(())
}

/// Compares all that is asked of a file.
fn compare_case(
    options: &Options,
    mut case: Case,
    drivers: &mut [Option<Driver>; 2],
    carried: &mut Carried,
    tally: &mut Tally,
) -> Result<(), Stop> {
    if let Some(sheet) = &options.sheet {
        case.sheet = sheet.clone();
        case.calls = vec![Call::Sheet];
    }
    let calls = case.calls.iter();
    let calls: Vec<_> = calls.filter(|call| options.asked(**call)).collect();
    // Every file goes into the sheet that is carried over, but where one is given.
    let is_carried = options.asked(Call::Sheet) && options.sheet.is_none() && case.lends_a_file();
    tally.files += u64::from(!calls.is_empty() || is_carried);
    // What the library has written in a check, for what can be read off it.
    let mut checked = None;
    let there = "asked only where there is a driver";
    for &call in calls {
        let driver = match call.program() {
            Program::Listing => {
                compare_listing(options, &case, tally)?;
                continue;
            }
            Program::Driver => drivers[0].as_mut().expect(there),
            Program::Probe => drivers[1].as_mut().expect(there),
        };
        if !case.list.is_empty() {
            sheets::compare_list(options, &case, driver, tally)?;
            continue;
        }
        let reply = compare_call(options, &case, call, driver, checked.as_ref(), tally)?;
        if call.is_check() && case.tolerance_of(call) == case.tolerance_of(Call::First) {
            checked = Some(reply);
        }
    }
    if is_carried {
        let driver = drivers[0].as_mut().expect(there);
        carried.add(options, &case, driver, tally)?;
    }
    Ok(())
}

/// Compares a call for a file. What `first` answers is compared with the findings
/// of the library's own check too, where that was asked before; what `claims`
/// says to be over, with those beside it.
fn compare_call(
    options: &Options,
    case: &Case,
    call: Call,
    driver: &mut Driver,
    checked: Option<&Reply>,
    tally: &mut Tally,
) -> Result<Reply, Stop> {
    let read_off = match call {
        Call::First => checked.and_then(|checked| first_rejected(&case.file, checked)),
        _ => None,
    };
    let otherwise = |reply: &Reply| {
        if call == Call::Claims {
            let answer = first_over(&case.file, reply)?;
            return (answer != reply.over()[0]).then(|| format!("over first: {answer}"));
        }
        let answer = read_off.filter(|&answer| answer != reply.packed);
        answer.map(describe_first)
    };
    let request = case.request(call, Guard::None);
    let reply = compare_request(options, case, request, driver, &otherwise, tally)?;
    tally.read_off += u64::from(read_off.is_some());
    Ok(reply)
}

/// The library's reply, which is the reference's; with a guard, the last. Where
/// what is read off the library's other answers is another than this one, it
/// says so in words.
fn compare_request(
    options: &Options,
    case: &Case,
    mut request: Request,
    driver: &mut Driver,
    otherwise: &dyn Fn(&Reply) -> Option<String>,
    tally: &mut Tally,
) -> Result<Reply, Stop> {
    let reference = expected(&request);
    for &guard in options.guards() {
        request.guard = guard;
        let library = driver.ask(&request);
        let read_off = library.as_ref().ok().and_then(otherwise);
        if library.as_ref() != Ok(&reference) || read_off.is_some() {
            let text = difference::of_replies(case, &request, &reference, &library, read_off);
            return Err(Stop::Difference(text));
        }
    }
    let call = request.call;
    if options.one.is_some() {
        println!(
            "{} {}: {}",
            call.name(),
            case.kind,
            reference.describe(call)
        );
    }
    tally.reply(&request, &reference);
    Ok(reference)
}

fn compare_listing(options: &Options, case: &Case, tally: &mut Tally) -> Result<(), Stop> {
    let reference = reference::listing(&case.file);
    let library = list(
        options.command(Program::Listing),
        &case.file,
        options.patience,
    );
    if library.as_ref() != Ok(&reference) {
        let text = difference::of_listings(case, &reference, &library);
        return Err(Stop::Difference(text));
    }
    let text = String::from_utf8_lossy(&reference);
    if options.one.is_some() {
        println!("listing {}:\n{text}", case.kind);
    }
    let mut words = text.split_whitespace();
    let answer = match (words.next(), words.next()) {
        (Some("REFUSED"), Some(number)) => number.parse().expect("a number"),
        (Some("INPUT"), _) => TOO_LONG,
        _ => 0,
    };
    tally.answer(Call::Listing, answer);
    Ok(())
}
