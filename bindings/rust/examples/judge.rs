//! Judges the unit in a file by both passes and prints document 01's line, `number letter place`.
use std::process::ExitCode;

fn main() -> ExitCode {
    let Some(path) = std::env::args_os().nth(1) else {
        eprintln!("usage: judge FILE");
        return ExitCode::from(2);
    };
    match std::fs::read(&path) {
        Ok(unit) => {
            println!("{}", wavgrut::both(&unit, &mut [0; 16384]));
            ExitCode::SUCCESS
        }
        Err(error) => {
            eprintln!("judge: {}: {error}", path.to_string_lossy());
            ExitCode::from(2)
        }
    }
}
