//! The words of the command line.

use std::process::exit;
use std::time::Duration;

use tests::calls::{Call, Guard, Program};

const USAGE: &str = "\
compare [--files N] [--seed S] [--one SEED [--sheet FILE]] [--limits]
        [--only CALL] [--guard] [--wait SECONDS] [--workers N]
        -- DRIVER ARG... [-- PROBE ARG... [-- LISTING ARG...]]

  --files N       compare N files (20000, with --guard 1000); from 10000 on,
                  the files at the limits and those for every possibility are
                  among them, and from 20000 on, each answer must have come up
                  often enough
  --seed S        other files (0; below 2^32)
  --one SEED      only the file of this seed, as a difference names it
  --sheet FILE    only added to the sheet of these bytes, as a difference names
                  it too: the sheet has all that was added before
  --limits        only the files at the limits
  --only CALL     one call alone: check, within, claims, number, bits, record,
                  first, sheet, structure, counted or listing
  --guard         everything that is lent lies directly before a page that
                  cannot be used, and once more directly after one
  --wait SECONDS  how long an answer may take (300)
  --workers N     so many files at a time (as many as there are processors)

DRIVER holds the library, PROBE the probe; LISTING is the listing program. The
calls of a program that is left out are not compared.

Exits with 0 where there is no difference, 1 where there is one or an answer
came up too seldom, 2 where nothing could be compared.";

/// A default run; the least numbers are asked of it and of longer ones.
pub const FILES: u64 = 20_000;
const FILES_GUARDED: u64 = 1000;

pub struct Options {
    files: Option<u64>,
    pub run: u64,
    pub one: Option<u64>,
    pub sheet: Option<Vec<u8>>,
    pub limits: bool,
    only: Option<Call>,
    pub guard: bool,
    pub patience: Duration,
    pub workers: usize,
    /// Those of driver, probe and listing; empty where left out.
    commands: [Vec<String>; 3],
}

impl Options {
    pub fn files(&self) -> u64 {
        let usual = if self.guard { FILES_GUARDED } else { FILES };
        self.files.unwrap_or(usual)
    }

    pub fn command(&self, program: Program) -> &[String] {
        match program {
            Program::Driver => &self.commands[0],
            Program::Probe => &self.commands[1],
            Program::Listing => &self.commands[2],
        }
    }

    /// Whether a call is compared.
    pub fn asked(&self, call: Call) -> bool {
        // The listing program lends what it has itself.
        let guardable = call.program() != Program::Listing;
        self.only.is_none_or(|only| only == call)
            && !self.command(call.program()).is_empty()
            && (!self.guard || guardable)
    }

    /// Where what is lent lies, one after the other.
    pub fn guards(&self) -> &'static [Guard] {
        match self.guard {
            true => &[Guard::After, Guard::Before],
            false => &[Guard::None],
        }
    }

    /// Whether the least numbers are asked.
    pub fn with_least(&self) -> bool {
        self.one.is_none() && !self.limits && !self.guard && self.files() >= FILES
    }
}

pub fn options() -> Options {
    let mut options = Options {
        files: None,
        run: 0,
        one: None,
        sheet: None,
        limits: false,
        only: None,
        guard: false,
        patience: Duration::from_secs(300),
        workers: std::thread::available_parallelism().map_or(1, usize::from),
        commands: Default::default(),
    };
    let arguments: Vec<String> = std::env::args().skip(1).collect();
    let mut parts = arguments.split(|argument| argument == "--");
    let mut words = parts.next().unwrap_or(&[]).iter();
    for command in &mut options.commands {
        *command = parts.next().unwrap_or(&[]).to_vec();
    }
    while let Some(word) = words.next() {
        match word.as_str() {
            "--guard" => {
                options.guard = true;
                continue;
            }
            "--limits" => {
                options.limits = true;
                continue;
            }
            _ => {}
        }
        let value = words.next().map_or("", String::as_str);
        if word == "--only" {
            options.only = Call::ALL.into_iter().find(|call| call.name() == value);
            if options.only.is_none() {
                usage();
            }
            continue;
        }
        if word == "--sheet" {
            options.sheet = std::fs::read(value).ok();
            if options.sheet.is_none() {
                usage();
            }
            continue;
        }
        match (word.as_str(), value.parse().ok()) {
            ("--files", Some(value)) => options.files = Some(value),
            ("--seed", Some(value)) if value >> 32 == 0 => options.run = value,
            ("--one", Some(value)) => options.one = Some(value),
            ("--wait", Some(value)) => options.patience = Duration::from_secs(value),
            ("--workers", Some(value @ 1..=64)) => options.workers = value as usize,
            _ => usage(),
        }
    }
    let none = options.commands.iter().all(|command| command.is_empty());
    let sheet_alone = options.sheet.is_some() && options.one.is_none();
    if none || sheet_alone || parts.next().is_some() {
        usage();
    }
    options
}

fn usage() -> ! {
    eprintln!("{USAGE}");
    exit(2);
}
