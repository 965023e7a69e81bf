//! `ashlarkin` draws captured video memory of the Game Boy Advance to PNG.

mod batch;
mod bench;
mod build;
mod capture;
mod cli;
mod compare;
mod exit;
mod explain;
mod find;
mod frame;
mod output;

use clap::Parser;

fn main() -> std::process::ExitCode {
    match cli::Cli::try_parse() {
        Ok(cli) => exit::after(cli.run()),
        Err(answer) => exit::after_usage(&answer),
    }
}
