//! `tickets`: bytes in hexadecimal to words, and back.

use crate::args;
use crate::failure::{Answer, Failure, DONE, REFUSED};
use crate::files::{read_image, NamesFile};
use crate::tickets::{read_ticket, Given, Source};
use clap::ArgMatches;
use vimelosa_host::{Names, Ticket};

/// Two digits for each of a ticket's five bytes.
const DIGITS: usize = 10;

pub fn run(matches: &ArgMatches) -> Result<Answer, Failure> {
    let names = read_names(matches)?;
    let mut source = Source::read(matches)?;
    if matches.contains_id("WORD") {
        separate(&mut source);
    }
    let (mut text, mut status) = (String::new(), DONE);
    for given in &source.given {
        match read_digits(source.place(given), &given.words)? {
            None => text += &digits(read_ticket(&source, given, &names)?),
            Some(ticket) => {
                if let Err(refusal) = ticket.asks() {
                    text += &format!("# {refusal}\n");
                    status = REFUSED;
                }
                text += &names.show(ticket).to_string();
            }
        }
        text.push('\n');
    }
    Ok(Answer::of(text).with_status(status))
}

/// The names of `--names`, else those beside the image of `--image`, else the given ones.
fn read_names(matches: &ArgMatches) -> Result<Names, Failure> {
    match (args::optional_path(matches, "names"), args::optional_path(matches, "image")) {
        (Some(path), _) => Ok(NamesFile::read_there(path)?.names),
        (None, Some(image)) => {
            // Only its names are used, but an image that is not there is a slip of the hand.
            read_image(image)?;
            Ok(NamesFile::read(matches, image)?.names)
        }
        (None, None) => Ok(Names::new()),
    }
}

/// Several words of digits on the command line are several tickets.
fn separate(source: &mut Source) {
    let words: Vec<String> = source.given[0].words.split_whitespace().map(str::to_owned).collect();
    if !words.is_empty() && words.iter().all(|word| is_hexadecimal(word)) {
        source.given = words.into_iter().map(|words| Given { words, line: None }).collect();
    }
}

fn is_hexadecimal(word: &str) -> bool {
    !word.is_empty() && word.bytes().all(|byte| byte.is_ascii_hexdigit())
}

/// The ticket of one word of hexadecimal digits; nothing if there are other words.
fn read_digits(place: String, words: &str) -> Result<Option<Ticket>, Failure> {
    if !is_hexadecimal(words) {
        return Ok(None);
    }
    if words.len() != DIGITS {
        let what = format!("a ticket has ten hexadecimal digits, not {}", words.len());
        return Err(Failure::new(what, place, "give two digits for each of its five bytes"));
    }
    let byte = |place: usize| u8::from_str_radix(&words[2 * place..2 * place + 2], 16);
    let bytes = [byte(0), byte(1), byte(2), byte(3), byte(4)];
    Ok(Some(Ticket::of_bytes(bytes.map(|byte| byte.expect("two hexadecimal digits are a byte")))))
}

fn digits(ticket: Ticket) -> String {
    ticket.bytes().map(|byte| format!("{byte:02x}")).concat()
}
