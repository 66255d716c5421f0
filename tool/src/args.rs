//! The commands and their words, for clap: the tool's `--help` and its man page come from here.

use crate::failure::{Answer, Failure};
use clap::error::{ContextKind, ErrorKind};
use clap::{value_parser, Arg, ArgAction, ArgGroup, ArgMatches, Command};
use std::path::{Path, PathBuf};

/// The whole command line.
pub fn command() -> Command {
    Command::new("vimelosa")
        .version(env!("CARGO_PKG_VERSION"))
        .about("Keep an equipment graph: classes, properties, individuals and their values")
        .after_help(
            "Exit status: 0 done, 1 refused, 2 usage or input/output. The man page vimelosa(1) has the rest.",
        )
        .subcommand_required(true)
        .max_term_width(100)
        .subcommands([
            new(),
            apply(),
            show(),
            facts(),
            check(),
            diff(),
            draw(),
            export(),
            import(),
            tickets(),
            stat(),
            Command::new("man").about("Print the man page, in roff").hide(true),
        ])
}

fn new() -> Command {
    Command::new("new")
        .about("Make an image with a fresh graph: the class Resource and nothing else")
        .arg(positional("IMAGE", "The file to be made; it must not be there"))
}

fn apply() -> Command {
    Command::new("apply")
        .about("Run tickets on the graph of an image")
        .long_about(
            "Run tickets on the graph of an image. All of them are read and understood before the first is \
             run. A new name in an insertion takes the lowest free id. Refused tickets are printed with \
             their reasons, then the sum and the new names; the other tickets stay. If nothing changed, no \
             file is written.",
        )
        .override_usage(
            "vimelosa apply [OPTIONS] <IMAGE> <WORD>...\n       \
             vimelosa apply [OPTIONS] <IMAGE> --file <FILE>",
        )
        .arg(positional("IMAGE", "The image"))
        .arg(words("The words of one ticket, e.g. insert subclass Pump Machine"))
        .arg(file("Read the tickets from a file, one a line; - is standard input"))
        .arg(flag("all-or-nothing", "Leave the files as they were if a ticket is refused or not agreed"))
        .arg(flag("operator", "Run operators' tickets: individual, literal, member and value alone"))
        .arg(ask())
        .arg(flag("yes", "With --ask: agree to every ticket, without a question").requires("ask"))
        .arg(names())
        .group(ArgGroup::new("tickets").args(["WORD", "file"]).required(true))
}

fn show() -> Command {
    Command::new("show")
        .about("Print the classes as a tree with their members, the properties, values and literals")
        .args([positional("IMAGE", "The image"), names()])
}

fn facts() -> Command {
    Command::new("facts")
        .about("Print all facts in words, one a line")
        .args([positional("IMAGE", "The image"), ids(), names()])
        .arg(option("kind", "KIND", "Print only the facts of one kind, e.g. member"))
}

fn check() -> Command {
    Command::new("check")
        .about("Say whether an image is well formed and consistent, and else which rule it breaks")
        .arg(positional("IMAGE", "The image"))
}

fn diff() -> Command {
    Command::new("diff")
        .about("Print the facts that only one of two images has: - those of A, + those of B")
        .long_about(
            "Print the facts that only one of two images has: - those of A, + those of B. Facts are compared \
             by their ids; each is printed with the names of its own image.",
        )
        .args([positional("A", "An image"), positional("B", "Another image"), ids(), names()])
        .arg(flag("exit-code", "End with status 1 if the facts differ"))
}

fn draw() -> Command {
    Command::new("draw")
        .about("Draw the classes with their members and the properties between them, as SVG")
        .long_about(
            "Draw the classes with their members and the properties between them, as SVG. Up to 30 classes, \
             subclasses stand below their classes and a property is an arrow from its domain to its range. \
             With more, subclasses stand to the right and a property is a line in the box of its domain. An \
             exclusive property is said to be one beside its name.",
        )
        .arg(positional("IMAGE", "The image"))
        .arg(output())
        .arg(flag("dot", "Print the drawing's DOT text and do not call Graphviz"))
        .arg(names())
}

fn export() -> Command {
    Command::new("export")
        .about("Print the graph as a text of N-Triples")
        .long_about(
            "Print the graph as a text of N-Triples, a line for each fact but individuals and literals, \
             which other lines tell. A literal that is in no value is left out; how many are is said on \
             standard error. The text has ids, not names.",
        )
        .args([positional("IMAGE", "The image"), output()])
}

fn import() -> Command {
    Command::new("import")
        .about("Make an image with the graph of a text of N-Triples")
        .long_about(
            "Make an image with the graph of a text of N-Triples, as export prints it. The lines stand in \
             any order, and repeated ones count once. What follows from a line is not added, but for \
             individuals and literals. A text is refused whole; if a line is outside the profile \
             (TRIPLES in the man page), its number is said.",
        )
        .arg(positional("TEXT", "The text; - is standard input"))
        .arg(positional("IMAGE", "The file to be made; it must not be there"))
}

fn tickets() -> Command {
    Command::new("tickets")
        .about("Turn tickets from bytes in hexadecimal into words, and back")
        .override_usage(
            "vimelosa tickets [OPTIONS] <WORD>...\n       vimelosa tickets [OPTIONS] --file <FILE>",
        )
        .arg(words("A ticket's ten hexadecimal digits (several are several tickets), or its words"))
        .arg(file("Read tickets from a file, one a line, either way; - is standard input"))
        .arg(path("image", "IMAGE", "Use the names of this image"))
        .arg(names())
        .group(ArgGroup::new("tickets").args(["WORD", "file"]).required(true))
}

fn stat() -> Command {
    Command::new("stat")
        .about("Print how many facts and ids the graph has, and what room is left")
        .args([positional("IMAGE", "The image"), names()])
}

fn positional(name: &'static str, help: &'static str) -> Arg {
    Arg::new(name).value_name(name).help(help).required(true).value_parser(value_parser!(PathBuf))
}

fn words(help: &'static str) -> Arg {
    Arg::new("WORD").value_name("WORD").help(help).num_args(1..)
}

fn flag(name: &'static str, help: &'static str) -> Arg {
    Arg::new(name).long(name).help(help).action(ArgAction::SetTrue)
}

fn option(name: &'static str, value: &'static str, help: &'static str) -> Arg {
    Arg::new(name).long(name).value_name(value).help(help)
}

fn path(name: &'static str, value: &'static str, help: &'static str) -> Arg {
    option(name, value, help).value_parser(value_parser!(PathBuf))
}

fn file(help: &'static str) -> Arg {
    path("file", "FILE", help)
}

fn output() -> Arg {
    path("output", "FILE", "Write to a file instead of standard output").short('o')
}

/// The library shows what a ticket of anyone would do; operators have no such call.
fn ask() -> Arg {
    flag("ask", "Show the facts that each ticket would add and remove, and ask before it is run")
        .conflicts_with("operator")
}

fn ids() -> Arg {
    flag("ids", "Print ids instead of names")
}

fn names() -> Arg {
    path("names", "FILE", "Take the names from this file instead of IMAGE.names")
}

/// A path that the command line must have.
pub fn path_of<'a>(matches: &'a ArgMatches, name: &str) -> &'a Path {
    optional_path(matches, name).expect("clap asks for the path")
}

/// A path that the command line may have.
pub fn optional_path<'a>(matches: &'a ArgMatches, name: &str) -> Option<&'a Path> {
    matches.get_one::<PathBuf>(name).map(PathBuf::as_path)
}

/// The words of a ticket on the command line, joined.
pub fn words_of(matches: &ArgMatches) -> Option<String> {
    let words: Vec<&str> = matches.get_many::<String>("WORD")?.map(String::as_str).collect();
    Some(words.join(" "))
}

/// Help and version are answers; any other error of the command line is a failure in one line.
pub fn explain(error: &clap::Error) -> Result<Answer, Failure> {
    if matches!(error.kind(), ErrorKind::DisplayHelp | ErrorKind::DisplayVersion) {
        return Ok(Answer::of(error.to_string()));
    }
    let called = called_command();
    let what = match error.kind() {
        ErrorKind::MissingSubcommand => "no command is given".to_owned(),
        _ => first_paragraph(&error.to_string()),
    };
    let mut kinds = [ContextKind::SuggestedSubcommand, ContextKind::SuggestedArg].into_iter();
    let takes_words = ["vimelosa apply", "vimelosa tickets"].contains(&called.as_str());
    let advice = match kinds.find_map(|kind| error.get(kind)) {
        Some(suggested) => format!("did you mean {suggested}? see {called} --help"),
        None if takes_words && error.kind() == ErrorKind::UnknownArgument => {
            format!("write -- before a ticket's word that starts with -; see {called} --help")
        }
        None => format!("see {called} --help"),
    };
    Err(Failure::new(what, called, advice))
}

/// What clap says before it says more, in one line.
fn first_paragraph(text: &str) -> String {
    let lines = text.lines().take_while(|line| !line.is_empty()).map(str::trim);
    lines.collect::<Vec<_>>().join(" ").trim_start_matches("error: ").to_owned()
}

/// The command that the first word names, where it names one.
fn called_command() -> String {
    let first = std::env::args_os().nth(1).unwrap_or_default();
    match command().find_subcommand(first) {
        Some(known) => format!("vimelosa {}", known.get_name()),
        None => "vimelosa".to_owned(),
    }
}
