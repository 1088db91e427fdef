//! The command `ravneket`: audits mesh files, and writes them corrected.

mod cli;

fn main() -> std::process::ExitCode {
    cli::main()
}
