//! The program `sockdiag`, which answers lines.
#![forbid(unsafe_code)]

fn main() -> std::process::ExitCode {
    sockdiag::programs::sockdiag()
}
