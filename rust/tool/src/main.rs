use std::process::ExitCode;

fn main() -> ExitCode {
    gunwaleish_tool::main(std::env::args_os().skip(1).collect())
}
