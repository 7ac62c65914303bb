//! `completion`: the completion of command lines in a shell.

use crate::arguments::Arguments;
use crate::command::{Command, Run};
use crate::completion::Shell;
use crate::each::{output_of, Made};
use crate::failure::Failure;

pub const COMMAND: Command = Command {
    name: "completion",
    summary: "the completion of command lines, for bash, zsh or fish",
    usage: "SHELL [-o OUT]",
    help: "SHELL is bash, zsh or fish. The output is a script for it that knows the commands and their\n\
           options:\n\n\
           source <(gunwaleish completion bash)          # in ~/.bashrc\n\
           gunwaleish completion fish | source           # in ~/.config/fish/config.fish\n\
           gunwaleish completion zsh -o DIR/_gunwaleish  # DIR stands in $fpath",
    options: &[],
    example: "build/release/gunwaleish completion bash | bash -n",
    run: Run::OfAll(run),
};

fn run(commands: &[Command], arguments: &Arguments) -> Result<(), Failure> {
    let wrong =
        |what: &str| Failure::Wrong(format!("{what}; gunwaleish completion --help tells more"));
    let [word] = arguments.files.as_slice() else {
        return Err(wrong("completion needs the name of a shell: bash, zsh or fish"));
    };
    let named = Shell::ALL.into_iter().find(|shell| word.as_os_str() == shell.name());
    let Some(shell) = named else {
        return Err(wrong(&format!(
            "'{}' is none of bash, zsh and fish",
            crate::files::name_of(word)
        )));
    };
    let output = output_of(&["gunwaleish".into()], shell.name(), arguments.output.as_deref())?;
    Made::done(shell.script(commands)).hand_out(output.as_deref())
}
