//! Looks into a journal:
//!
//!     journal [--large] N D OWN FILE      what is in it, in words
//!     journal --script N D OWN FILE       its records as a script, for tools/play
//!
//! N, D and OWN are the settings of the station that wrote it, which the journal doesn't tell. The exit
//! is 0 where it was read to its end, 1 where a slot stopped the replay, 2 where nothing could be read.
//! The file is only read.

use journal::{Settings, Told, script, tell};
use station::Size;
use std::process::ExitCode;

fn main() -> ExitCode {
    match asked().and_then(|asked| asked.told()) {
        Ok(Told { said, is_whole }) => {
            print!("{said}");
            if is_whole { ExitCode::SUCCESS } else { ExitCode::FAILURE }
        }
        Err(why) => {
            eprintln!("{why}");
            ExitCode::from(2)
        }
    }
}

/// What was asked for.
struct Asked {
    is_script: bool,
    settings: Settings,
    journal: Vec<u8>,
}

impl Asked {
    fn told(&self) -> Result<Told, String> {
        let tell = if self.is_script { script } else { tell };
        tell(self.settings, &self.journal).map_err(|failure| failure.to_string())
    }
}

fn asked() -> Result<Asked, String> {
    let words: Vec<String> = std::env::args().skip(1).collect();
    let words: Vec<&str> = words.iter().map(String::as_str).collect();
    let (is_script, size, rest) = match words[..] {
        ["--large", ref rest @ ..] => (false, Size::Large, rest),
        // the script program has the small limits
        ["--script", ref rest @ ..] => (true, Size::Small, rest),
        ref rest => (false, Size::Small, rest),
    };
    let [n, d, own, path] = rest[..] else {
        return Err("journal [--large] N D OWN FILE, or journal --script N D OWN FILE".into());
    };
    let number = |word: &str| word.parse().map_err(|_| format!("{word} is no number"));
    let settings = Settings { size, n: number(n)?, d: number(d)?, own: number(own)? };
    let journal = std::fs::read(path).map_err(|error| format!("{path}: {error}"))?;
    Ok(Asked { is_script, settings, journal })
}
