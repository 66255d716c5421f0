//! The files of a graph: its image, and its names beside it.

use crate::args;
use crate::failure::{reason, Failure, REFUSED};
use crate::replace::Replacement;
use clap::ArgMatches;
use std::ffi::OsString;
use std::fs::{self, File};
use std::io::{self, ErrorKind, Read};
use std::path::{Path, PathBuf};
use vimelosa_host::{Graph, Names};

/// No image is as long as this, so what follows is not read: starts and counts are 16 bits, and a fact has at
/// most three ids.
const LONGEST_READ: u64 = 1 << 20;

/// An image as its file has it, and its graph.
pub struct Image {
    pub path: PathBuf,
    pub bytes: Vec<u8>,
    pub graph: Graph,
}

impl Image {
    /// Reads the image that the command line names. One that is refused is a failure with status 1.
    pub fn read(path: &Path) -> Result<Image, Failure> {
        let bytes = read_image(path)?;
        let graph = Graph::load(&bytes).map_err(|refusal| {
            let advice = "name an image, or take this one from a backup";
            Failure::new(refusal, path.display(), advice).with_status(REFUSED)
        })?;
        Ok(Image { path: path.to_owned(), bytes, graph })
    }
}

/// The bytes of an image, whatever they are.
pub fn read_image(path: &Path) -> Result<Vec<u8>, Failure> {
    let mut bytes = Vec::new();
    let read = File::open(path).and_then(|file| file.take(LONGEST_READ).read_to_end(&mut bytes));
    read.map(|_| bytes).map_err(|error| {
        let advice = match error.kind() {
            ErrorKind::NotFound => "name an image that is there, or make one with vimelosa new",
            _ => "name an image that can be read",
        };
        Failure::new(format!("cannot read the image ({})", reason(&error)), path.display(), advice)
    })
}

/// A failure where a file is: a new image does not go over one.
pub fn refuse_existing(path: &Path) -> Result<(), Failure> {
    match path.exists() {
        true => {
            let advice = "name another, or remove the file first";
            Err(Failure::new("the file is there already", path.display(), advice))
        }
        false => Ok(()),
    }
}

/// Makes a new image.
pub fn make_image(path: &Path, graph: &Graph) -> Result<(), Failure> {
    let replacement = Replacement::write(path, graph.image())?;
    replacement.expect_unchanged(None)?;
    replacement.put_in_place()
}

/// An output does not go over the image or its names.
pub fn refuse_sources(what: &str, output: &Path, sources: &[&Path]) -> Result<(), Failure> {
    let is_output = |source: &&Path| match (fs::canonicalize(source), fs::canonicalize(output)) {
        (Ok(source), Ok(output)) => source == output,
        _ => false,
    };
    match sources.iter().any(is_output) {
        true => {
            let what = format!("the {what} would go over the image or its names");
            Err(Failure::new(what, output.display(), "name another"))
        }
        false => Ok(()),
    }
}

/// The names of a graph, and the file's text, if there is a file.
pub struct NamesFile {
    pub path: PathBuf,
    pub text: Option<String>,
    pub names: Names,
}

impl NamesFile {
    /// Reads the file of `--names`, or else the one beside the image, which need not be there.
    pub fn read(matches: &ArgMatches, image: &Path) -> Result<NamesFile, Failure> {
        match args::optional_path(matches, "names") {
            Some(path) => NamesFile::read_there(path),
            None => NamesFile::read_any(&beside(image)),
        }
    }

    /// The names to print facts with: with `--ids` none, so that the file is not read.
    pub fn read_unless_ids(matches: &ArgMatches, image: &Path) -> Result<Option<Names>, Failure> {
        match matches.get_flag("ids") {
            true => Ok(None),
            false => Ok(Some(NamesFile::read(matches, image)?.names)),
        }
    }

    /// The same where new names may be saved: then the file of `--names` need not be there either.
    pub fn read_or_begin(matches: &ArgMatches, image: &Path) -> Result<NamesFile, Failure> {
        match args::optional_path(matches, "names") {
            Some(path) => NamesFile::read_any(path),
            None => NamesFile::read_any(&beside(image)),
        }
    }

    /// Reads a names file that has to be there.
    pub fn read_there(path: &Path) -> Result<NamesFile, Failure> {
        let names = NamesFile::read_any(path)?;
        match names.text {
            Some(_) => Ok(names),
            None => {
                Err(Failure::new("there is no such names file", path.display(), "name one that is there"))
            }
        }
    }

    /// Reads a names file; where there is none, only the given names are known.
    fn read_any(path: &Path) -> Result<NamesFile, Failure> {
        let text = match fs::read(path) {
            Ok(bytes) => Some(text_of(bytes, path)?),
            Err(error) if error.kind() == ErrorKind::NotFound => None,
            Err(error) => {
                let what = format!("cannot read the names ({})", reason(&error));
                return Err(Failure::new(what, path.display(), "name a file that can be read with --names"));
            }
        };
        let lines = without_byte_order_mark(text.as_deref().unwrap_or_default());
        let names = lines.parse::<Names>().map_err(|error| {
            let place = format!("line {} of {}", error.line, path.display());
            Failure::new(error.reason, place, "set the line right: an id, a tab, a name")
        })?;
        Ok(NamesFile { path: path.to_owned(), text, names })
    }
}

/// The names file of an image: `.names` after its own name.
pub fn beside(image: &Path) -> PathBuf {
    let mut path = OsString::from(image);
    path.push(".names");
    path.into()
}

/// The bytes of a text file, or of standard input for `-`, as text.
pub fn read_text(path: &Path) -> Result<String, Failure> {
    text_of(read_input("tickets", path, u64::MAX)?, path)
}

/// The bytes of a file, or of standard input for `-`; at most so many.
pub fn read_input(what: &str, path: &Path, most: u64) -> Result<Vec<u8>, Failure> {
    let mut bytes = Vec::new();
    let read = match path.to_str() {
        Some("-") => io::stdin().lock().take(most).read_to_end(&mut bytes),
        _ => File::open(path).and_then(|file| file.take(most).read_to_end(&mut bytes)),
    };
    read.map(|_| bytes).map_err(|error| {
        let what = format!("cannot read the {what} ({})", reason(&error));
        Failure::new(what, path.display(), "name a file that can be read, or - for standard input")
    })
}

/// What a file is called in messages.
pub fn input_name(path: &Path) -> String {
    match path.to_str() {
        Some("-") => "standard input".to_owned(),
        _ => path.display().to_string(),
    }
}

/// Text without the three bytes that some editors put before it to say that it is UTF-8.
pub fn without_byte_order_mark(text: &str) -> &str {
    text.strip_prefix('\u{feff}').unwrap_or(text)
}

/// Text is UTF-8; other bytes are a failure that names the first line which has them.
fn text_of(bytes: Vec<u8>, path: &Path) -> Result<String, Failure> {
    String::from_utf8(bytes).map_err(|error| {
        let good = &error.as_bytes()[..error.utf8_error().valid_up_to()];
        let line = 1 + good.iter().filter(|&&byte| byte == b'\n').count();
        Failure::new(
            "bytes that are not UTF-8",
            format!("line {line} of {}", path.display()),
            "save it as UTF-8",
        )
    })
}
