//! The program `sslist`, which lists captures.
#![forbid(unsafe_code)]

fn main() -> std::process::ExitCode {
    sockdiag::programs::sslist()
}
