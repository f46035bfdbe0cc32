//! Makes the logs that are stored for the programs `listing_cases` and `loglist`, and the sample, from their
//! descriptions (`cases.rs`), with the listings that the model gives for them:
//!
//!     cargo run --release --quiet --bin listing_cases -- FOLDER
//!
//! In FOLDER, a new one: `data/NAME.mlg`, `args` and `stdout` of `listing_cases`; `loglist.stdin` and `loglist.stdout`;
//! `samples/engine.mlg`.

#[allow(dead_code)]
#[path = "../../abi.rs"]
mod abi; // the model's structs
mod cases;
mod log;
#[allow(dead_code)]
#[path = "../../model/mod.rs"]
mod model;

use model::listing::listing;
use std::path::Path;
use std::process::exit;
use std::{env, fs, io};

fn main() {
    let [folder] = &env::args().skip(1).collect::<Vec<_>>()[..] else {
        eprintln!("usage: listing_cases FOLDER");
        exit(2)
    };
    if let Err(error) = make(Path::new(folder)) {
        eprintln!("{folder}: {error}");
        exit(1)
    }
}

fn make(folder: &Path) -> io::Result<()> {
    fs::create_dir_all(folder.join("data"))?;
    fs::create_dir_all(folder.join("samples"))?;
    let (mut args, mut stdout) = (String::new(), String::new());
    for (name, log) in cases::cases() {
        let name = format!("{name}.mlg");
        let bytes = log.bytes();
        args += &format!("{name}\n");
        stdout += &format!("== {name}, {} bytes\n{}", bytes.len(), shortened(&listing(&bytes)));
        let file = folder.join("data").join(&name);
        if file.exists() {
            return Err(io::Error::other(format!("{name} is described twice, or stands there already")));
        }
        fs::write(file, bytes)?;
    }
    fs::write(folder.join("args"), args)?;
    fs::write(folder.join("stdout"), stdout)?;
    fs::write(folder.join("samples/engine.mlg"), cases::engine().bytes())?;
    let example = cases::example().bytes();
    fs::write(folder.join("loglist.stdin"), &example)?;
    fs::write(folder.join("loglist.stdout"), listing(&example))
}

/// What the program writes of a listing: of one over 20,000 bytes the first and the last 200, the length and a sum.
fn shortened(text: &str) -> String {
    let length = text.len();
    if length <= 20_000 {
        return text.to_string();
    }
    let sum = text.bytes().fold(0, |sum, byte| (sum * 31 + byte as u64) % 1_000_003);
    format!("{}\n..\n{}{length} bytes, sum {sum}\n", &text[..200], &text[length - 200..])
}
