//! The command line, read word by word.

use std::ffi::{OsStr, OsString};
use std::path::PathBuf;

use crate::arguments::Arguments;
use crate::command::Command;
use crate::failure::Failure;
use crate::options::{self, REPEATED};
use crate::telling::shown;

/// What the command line asks for.
pub enum Asked {
    Help,
    Version,
    HelpFor(&'static Command),
    Run(&'static Command, Arguments),
}

/// What the words after the tool's name ask for, of the commands in a table.
pub fn read(commands: &'static [Command], words: Vec<OsString>) -> Result<Asked, Failure> {
    let mut words = words.into_iter();
    let Some(first) = words.next() else {
        return Err(wrong("no command is named"));
    };
    match first.to_str() {
        Some("--help" | "-h") => return Ok(Asked::Help),
        Some("--version" | "-V") => return Ok(Asked::Version),
        Some("help") => {
            let Some(name) = words.next() else {
                return Ok(Asked::Help);
            };
            return command_named(commands, &name).map(Asked::HelpFor);
        }
        _ => {}
    }
    let command = command_named(commands, &first)?;
    let Some(arguments) = read_rest(command, words)? else {
        return Ok(Asked::HelpFor(command));
    };
    Ok(Asked::Run(command, arguments))
}

fn command_named(commands: &'static [Command], word: &OsStr) -> Result<&'static Command, Failure> {
    let named = commands.iter().find(|command| word.to_str() == Some(command.name));
    named.ok_or_else(|| {
        let word = shown(&word.to_string_lossy());
        let names = commands.iter().map(|command| command.name);
        wrong(&format!("there is no command '{word}'{}", options::perhaps(&word, names)))
    })
}

/// What stands after the command, or `None` if help is asked for.
fn read_rest(
    command: &'static Command,
    mut words: impl Iterator<Item = OsString>,
) -> Result<Option<Arguments>, Failure> {
    let mut arguments = Arguments::default();
    let mut only_files = false;
    while let Some(word) = words.next() {
        let text = word.to_string_lossy();
        match &*text {
            _ if only_files => arguments.files.push(word.into()),
            "--" => only_files = true,
            "--help" | "-h" => return Ok(None),
            option if option.starts_with('-') && option != "-" => {
                if let Some(output) = output_of(command, &word, &mut words)? {
                    if arguments.output.replace(output.into()).is_some() {
                        return Err(wrong_for(command, "-o is there twice"));
                    }
                    continue;
                }
                let (name, values) = own_option(command, &word, &mut words)?;
                if arguments.options.contains_key(name) && !REPEATED.contains(&name) {
                    return Err(wrong_for(command, &format!("{name} is there twice")));
                }
                let text = values.iter().map(|word| word.to_string_lossy().into_owned());
                arguments.options.entry(name).or_default().extend(text);
                let paths = values.into_iter().map(PathBuf::from);
                arguments.paths.entry(name).or_default().extend(paths);
            }
            _ => arguments.files.push(word.into()),
        }
    }
    Ok(Some(arguments))
}

/// The name after -o, with or without a space, or after --output, with a space or a sign =. `None` if the
/// word is another option.
fn output_of(
    command: &Command,
    word: &OsStr,
    words: &mut impl Iterator<Item = OsString>,
) -> Result<Option<OsString>, Failure> {
    let text = word.to_string_lossy();
    // -output is no -o with the name "utput", but --output with a sign too few.
    let short = text.starts_with("-o") && !is_long(command, &text);
    let joined = match () {
        () if text == "-o" || text == "--output" => None,
        () if short => Some("-o".len()),
        () if text.starts_with("--output=") => Some("--output=".len()),
        () => return Ok(None),
    };
    let output = match joined {
        Some(before) => Some(after(word, before)).filter(|name| !name.is_empty()),
        None => words.next(),
    };
    let needs = || wrong_for(command, &format!("{text} needs a name after it"));
    output.map(Some).ok_or_else(needs)
}

/// A long option that lacks one of its two signs.
fn is_long(command: &Command, word: &str) -> bool {
    let name = word.split('=').next().unwrap_or_default();
    options::of(command).any(|option| option.strip_prefix('-') == Some(name))
}

/// What stands in a word after so many bytes, which are ASCII. The rest may be any name of a file.
fn after(word: &OsStr, bytes: usize) -> OsString {
    #[cfg(unix)]
    {
        use std::os::unix::ffi::OsStrExt;
        OsStr::from_bytes(&word.as_bytes()[bytes..]).into()
    }
    #[cfg(not(unix))]
    {
        word.to_string_lossy()[bytes..].into()
    }
}

/// An option that only this command has, with as many words as stand after it, or after a sign = with
/// commas between them.
fn own_option(
    command: &'static Command,
    option: &OsStr,
    words: &mut impl Iterator<Item = OsString>,
) -> Result<(&'static str, Vec<OsString>), Failure> {
    let text = option.to_string_lossy();
    let (word, joined) = match text.split_once('=') {
        Some((word, value)) => (word, Some(value)),
        None => (&*text, None),
    };
    let Some(&(name, count)) = command.options.iter().find(|(name, _)| *name == word) else {
        let perhaps = options::perhaps(word, options::of(command));
        let what = format!("{} has no option '{}'{perhaps}", command.name, shown(word));
        return Err(wrong_for(command, &what));
    };
    let values: Vec<OsString> = match joined {
        Some(_) if count == 0 => {
            return Err(wrong_for(command, &format!("{name} takes no value")));
        }
        // It may name a file, and need not be text.
        Some(_) if count == 1 => vec![after(option, word.len() + 1)],
        Some(value) => value.split(',').map(OsString::from).collect(),
        None => words.take(count).collect(),
    };
    match values.len() == count && !values.iter().any(|value| value.is_empty()) {
        true => Ok((name, values)),
        false => {
            let has = if count > 1 { format!(", and has {}", values.len()) } else { String::new() };
            let takes = options::takes(name);
            Err(wrong_for(command, &format!("{name} needs {takes}{has}")))
        }
    }
}

fn wrong(what: &str) -> Failure {
    Failure::Wrong(format!("{what}; gunwaleish --help lists the commands"))
}

fn wrong_for(command: &Command, what: &str) -> Failure {
    Failure::Wrong(format!("{what}; gunwaleish {} --help tells more", command.name))
}
