//! The benchmark without other readers and converters: `benchmark [FOLDER [ROUNDS]]`. It checks no thresholds.

use benchmark::Peers;
use std::process::ExitCode;

fn main() -> ExitCode {
    benchmark::main(&Peers::default())
}
