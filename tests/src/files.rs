//! Writes the files of a run into a folder, so that programs can be tried on
//! them: in folders of a hundred, each file named by its seed.
//!
//!     files FOLDER [FILES [RUN]]    20000 files of run 0 where nothing is said

use std::fs::{create_dir_all, write};
use std::path::Path;
use std::process::ExitCode;

use tests::generate::{case, seeds};

const IN_A_FOLDER: usize = 100;

fn main() -> ExitCode {
    let words: Vec<String> = std::env::args().skip(1).collect();
    let number = |at: usize, usual| words.get(at).map_or(Some(usual), |word| word.parse().ok());
    let (Some(folder), Some(files), Some(run)) = (words.first(), number(1, 20_000), number(2, 0))
    else {
        eprintln!("files FOLDER [FILES [RUN]]");
        return ExitCode::from(2);
    };
    match write_all(Path::new(folder), &seeds(run, files)) {
        Ok(()) => ExitCode::SUCCESS,
        Err(error) => {
            eprintln!("{folder}: {error}");
            ExitCode::FAILURE
        }
    }
}

fn write_all(folder: &Path, seeds: &[u64]) -> std::io::Result<()> {
    let cases = seeds.iter().filter_map(|&seed| case(seed));
    for (at, case) in cases.filter(|case| case.lends_a_file()).enumerate() {
        let part = folder.join(format!("{:05}", at / IN_A_FOLDER));
        create_dir_all(&part)?;
        write(part.join(format!("{}.cwr", case.seed)), &case.file)?;
    }
    Ok(())
}
