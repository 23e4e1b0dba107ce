//! Replays recorded runs: `replay [--large] FILE..`, with 01's limits or the large ones. Exits 1 if a
//! file goes another way than recorded.

use second::Limits;
use std::process::ExitCode;

fn main() -> ExitCode {
    let (mut passed, mut failed, mut inputs) = (0, 0, 0);
    let mut paths = std::env::args().skip(1).peekable();
    let large = paths.next_if_eq("--large").is_some();
    let limits = if large { Limits::LARGE } else { Limits::SMALL };
    for path in paths {
        let text = std::fs::read_to_string(&path).map_err(|error| error.to_string());
        match text.and_then(|text| second::replay::replay(limits, &text)) {
            Ok(count) => {
                passed += 1;
                inputs += count;
            }
            Err(difference) => {
                failed += 1;
                println!("{path}: {difference}");
            }
        }
    }
    println!("{passed} files as recorded ({inputs} inputs), {failed} differ");
    if failed == 0 && passed > 0 {
        ExitCode::SUCCESS
    } else {
        ExitCode::FAILURE
    }
}
