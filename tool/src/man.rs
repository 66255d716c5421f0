//! The man page in roff: what clap knows of the commands, and the sections of `man/sections.roff`.

use crate::args;
use crate::failure::Answer;
use clap::{Arg, Command};

/// What clap does not know: the words of tickets, the files, the exit status, examples.
const SECTIONS: &str = include_str!("../man/sections.roff");

pub fn run() -> Answer {
    Answer::of(page(&args::command()))
}

fn page(command: &Command) -> String {
    let (name, version) = (command.get_name(), command.get_version().unwrap_or_default());
    let about = command.get_about().map(ToString::to_string).unwrap_or_default();
    let mut text = format!(".TH {} 1 \"\" \"Vimelosa {version}\" \"User Commands\"\n", name.to_uppercase());
    text += &format!(".SH NAME\n{name} \\- {}\n", escaped(&in_lower_case(&about)));
    text += ".SH SYNOPSIS\n";
    let commands: Vec<&Command> =
        command.get_subcommands().filter(|command| !command.is_hide_set()).collect();
    for command in &commands {
        text += &format!(".B {name} {}\n{}.br\n", command.get_name(), synopsis(command));
    }
    text += ".SH COMMANDS\n";
    for command in &commands {
        text += &section(command);
    }
    text += ".SH OPTIONS\n.TP\n\\fB\\-h\\fR, \\fB\\-\\-help\\fR\nPrint help; each command has its own.\n";
    text += ".TP\n\\fB\\-V\\fR, \\fB\\-\\-version\\fR\nPrint the version.\n";
    text + SECTIONS
}

/// A command's words after its name. Words that it need not have stand for a file with them.
fn synopsis(command: &Command) -> String {
    let arguments = command.get_arguments().filter(|argument| !is_automatic(argument));
    let (positional, options): (Vec<&Arg>, Vec<&Arg>) =
        arguments.partition(|argument| argument.is_positional());
    let (file, options): (Vec<&Arg>, Vec<&Arg>) =
        options.iter().partition(|option| option.get_id() == "file");
    let options = options.iter().map(|option| format!("[{}]", short_spelling(option)));
    let positional = positional.iter().map(|argument| match argument.is_required_set() {
        true => spelling(argument),
        false => format!("{{{}...|{}}}", spelling(argument), spelling(file[0])),
    });
    options.chain(positional).collect::<Vec<_>>().join(" ") + "\n"
}

/// A command's section: what it does, and its arguments.
fn section(command: &Command) -> String {
    let about = command.get_long_about().or_else(|| command.get_about());
    let mut text = format!(".SS {}\n{}.\n", command.get_name(), whole_sentence(about));
    for argument in command.get_arguments().filter(|argument| !is_automatic(argument)) {
        let help = whole_sentence(argument.get_help());
        text += &format!(".TP\n{}\n{help}.\n", spelling(argument));
    }
    text
}

/// Every command has help, which the section on options tells once.
fn is_automatic(argument: &Arg) -> bool {
    ["help", "version"].contains(&argument.get_id().as_str())
}

/// All ways in which an argument is written: `-o, --output FILE`.
fn spelling(argument: &Arg) -> String {
    with_value(&words_of(argument).join(", "), argument)
}

/// The first of them: `-o FILE`.
fn short_spelling(argument: &Arg) -> String {
    with_value(&words_of(argument)[0], argument)
}

/// The short and the long word of an option, in bold.
fn words_of(argument: &Arg) -> Vec<String> {
    let short = argument.get_short().map(|letter| format!("-{letter}"));
    let long = argument.get_long().map(|word| format!("--{word}"));
    short.into_iter().chain(long).map(|word| format!("\\fB{}\\fR", escaped(&word))).collect()
}

/// The words, and after them in italics the value that the argument takes.
fn with_value(words: &str, argument: &Arg) -> String {
    let value = match argument.get_value_names() {
        Some([name, ..]) if argument.get_action().takes_values() => format!("\\fI{}\\fR", escaped(name)),
        _ => String::new(),
    };
    format!("{words} {value}").trim().to_owned()
}

/// A text of clap's, in roff and without a full stop at its end.
fn whole_sentence(text: Option<&impl ToString>) -> String {
    let text = text.map(ToString::to_string).unwrap_or_default();
    escaped(text.trim_end_matches('.'))
}

fn in_lower_case(text: &str) -> String {
    let mut letters = text.chars();
    letters.next().map(|first| first.to_lowercase().chain(letters).collect()).unwrap_or_default()
}

/// Text for roff: a backslash and a hyphen are written out, and no line starts with a dot or an apostrophe.
fn escaped(text: &str) -> String {
    let text = text.replace('\\', "\\e").replace('-', "\\-");
    if text.starts_with(['.', '\'']) {
        return format!("\\&{text}");
    }
    text
}
