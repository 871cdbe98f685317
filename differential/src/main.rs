//! The program `differential`.

#![forbid(unsafe_code)]

fn main() -> std::process::ExitCode {
    differential::main()
}
