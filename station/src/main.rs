//! The program `dimpstea`. See [`station`].
fn main() -> std::process::ExitCode {
    station::main()
}
