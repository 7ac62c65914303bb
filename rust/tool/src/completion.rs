//! Completion of the command line for three shells, made from the table of commands.

use crate::command::Command;
use crate::options::{choices, count_after, names_file, of, takes};

/// A shell for which there is completion.
#[derive(Clone, Copy, Debug, PartialEq, Eq)]
pub enum Shell {
    Bash,
    Zsh,
    Fish,
}

impl Shell {
    pub const ALL: [Shell; 3] = [Shell::Bash, Shell::Zsh, Shell::Fish];

    pub fn name(self) -> &'static str {
        match self {
            Shell::Bash => "bash",
            Shell::Zsh => "zsh",
            Shell::Fish => "fish",
        }
    }

    /// The whole script for it, which knows these commands.
    pub fn script(self, commands: &[Command]) -> String {
        match self {
            Shell::Bash => bash(commands),
            Shell::Zsh => zsh(commands),
            Shell::Fish => fish(commands),
        }
    }
}

/// The words that can be the first argument of a command, where it is no file.
fn first_words(commands: &[Command], command: &str) -> Vec<&'static str> {
    match command {
        "help" => commands.iter().map(|command| command.name).collect(),
        "completion" => Shell::ALL.map(Shell::name).to_vec(),
        _ => vec![],
    }
}

/// What stands for a command besides those of the table.
const OTHERS: [&str; 3] = ["help", "--help", "--version"];

/// The commands whose first argument is a file.
fn with_files(commands: &[Command]) -> impl Iterator<Item = &Command> {
    commands.iter().filter(|command| first_words(commands, command.name).is_empty())
}

fn names(commands: &[Command]) -> impl Iterator<Item = &'static str> + '_ {
    commands.iter().map(|command| command.name).chain(OTHERS)
}

/// All options that have few words after them.
fn chosen(commands: &[Command]) -> Vec<&'static str> {
    let all = commands.iter().flat_map(|command| command.options).map(|(name, _)| *name);
    let mut chosen: Vec<&str> = all.filter(|name| !choices(name).is_empty()).collect();
    chosen.sort();
    chosen.dedup();
    chosen
}

fn joined<'a>(words: impl Iterator<Item = &'a str>) -> String {
    words.collect::<Vec<_>>().join(" ")
}

fn bash(commands: &[Command]) -> String {
    let reply = |words: String| format!("COMPREPLY=($(compgen -W '{words}' -- \"$word\"))");
    let mut text = format!(
        "# Completion of gunwaleish in bash. To use it: source <(gunwaleish completion bash)\n\
         _gunwaleish() {{\n    \
             local word=${{COMP_WORDS[COMP_CWORD]}} before=${{COMP_WORDS[COMP_CWORD-1]}}\n    \
             COMPREPLY=()\n    \
             if [ \"$COMP_CWORD\" -eq 1 ]; then\n        {}\n        return\n    fi\n    \
             case $before in\n",
        reply(joined(names(commands)))
    );
    for option in chosen(commands) {
        let words = reply(joined(choices(option).iter().copied()));
        text.push_str(&format!("        {option}) {words}; return ;;\n"));
    }
    text.push_str("    esac\n    case ${COMP_WORDS[1]}:$word in\n");
    for name in ["help", "completion"] {
        let words = reply(joined(first_words(commands, name).into_iter()));
        text.push_str(&format!("        {name}:*) {words} ;;\n"));
    }
    for command in with_files(commands) {
        let words = reply(joined(of(command)));
        text.push_str(&format!("        {}:-*) {words} ;;\n", command.name));
    }
    // Without an answer of its own, bash completes the names of files.
    text.push_str("    esac\n}\ncomplete -o default -F _gunwaleish gunwaleish\n");
    text
}

fn zsh(commands: &[Command]) -> String {
    let mut text = String::from(
        "#compdef gunwaleish\n\
         # Completion of gunwaleish in zsh. To use it, write this as _gunwaleish into a folder of $fpath.\n\
         _gunwaleish() {\n    local -a commands\n    commands=(\n",
    );
    for command in commands {
        let summary = command.summary.replace('\'', "'\\''").replace(':', "\\:");
        text.push_str(&format!("        '{}:{summary}'\n", command.name));
    }
    text.push_str(
        "        'help:what a command does'\n    )\n    \
         if (( CURRENT == 2 )); then\n        _describe command commands\n        return\n    fi\n    \
         local command=$words[2]\n    shift words\n    (( CURRENT-- ))\n    case $command in\n",
    );
    for name in ["help", "completion"] {
        let words = joined(first_words(commands, name).into_iter());
        text.push_str(&format!("        {name}) _arguments '1:word:({words})' ;;\n"));
    }
    for command in with_files(commands) {
        text.push_str(&format!("        {}) _arguments", command.name));
        of(command).for_each(|option| text.push_str(&format!(" {}", zsh_option(command, option))));
        text.push_str(" '*:file:_files' ;;\n");
    }
    text.push_str("    esac\n}\n_gunwaleish \"$@\"\n");
    text
}

fn zsh_option(command: &Command, option: &str) -> String {
    let after = match (count_after(command, option), choices(option)) {
        (0, _) => String::new(),
        (_, []) if names_file(option) => ":file:_files".to_string(),
        (count, []) => ":word: ".repeat(count),
        (_, words) => format!(":word:({})", words.join(" ")),
    };
    format!("'{option}{after}'")
}

fn fish(commands: &[Command]) -> String {
    let quoted = |text: &str| format!("'{}'", text.replace('\\', "\\\\").replace('\'', "\\'"));
    let mut text = String::from(
        "# Completion of gunwaleish in fish. To use it: gunwaleish completion fish | source\n",
    );
    let first = "complete -c gunwaleish -f -n __fish_use_subcommand";
    for command in commands {
        let summary = quoted(command.summary);
        text.push_str(&format!("{first} -a {} -d {summary}\n", command.name));
    }
    text.push_str(&format!("{first} -a help -d 'what a command does'\n{first} -l version\n"));
    for name in ["help", "completion"] {
        let words = joined(first_words(commands, name).into_iter());
        text.push_str(&format!(
            "complete -c gunwaleish -f -n '__fish_seen_subcommand_from {name}' -a '{words}'\n"
        ));
    }
    for command in with_files(commands) {
        for option in of(command) {
            let (long, short) = (option.strip_prefix("--"), option.strip_prefix('-'));
            let name =
                long.map_or(format!("-s {}", short.unwrap_or(option)), |long| format!("-l {long}"));
            let after = match (count_after(command, option), choices(option)) {
                (0, _) => String::new(),
                (_, []) if names_file(option) => " -r".to_string(),
                (_, []) => format!(" -x -d {}", quoted(takes(option))),
                (_, words) => format!(" -x -a {}", quoted(&words.join(" "))),
            };
            text.push_str(&format!(
                "complete -c gunwaleish -n '__fish_seen_subcommand_from {}' {name}{after}\n",
                command.name
            ));
        }
    }
    text
}
