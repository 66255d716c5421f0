//! Names as text: the file that keeps them, and facts and tickets written and read with them.

use crate::parse::read_ticket;
use crate::show::Written;
use crate::words::{id_of_digits, Vocabulary};
use crate::{NameError, Named, Names, NamesError, ParseError, Ticket};
use std::fmt;
use std::str::FromStr;

/// What some editors write at the start of a file.
const BYTE_ORDER_MARK: char = '\u{feff}';

impl Names {
    /// A fact or a ticket in words, with names for the ids that have one.
    ///
    /// ```
    /// use vimelosa_host::{Fact, NameError, Names, Ticket};
    /// let mut names = Names::new();
    /// names.insert(3, "pump")?;
    /// let fact = Fact::Subclass { class: 3, superclass: 0 };
    /// assert_eq!(names.show(fact).to_string(), "subclass pump Resource");
    /// assert_eq!(names.show(Ticket::insert_member(20, 3)).to_string(), "insert member 20 pump");
    /// # Ok::<(), NameError>(())
    /// ```
    pub fn show<'a>(&'a self, what: impl Named + 'a) -> impl fmt::Display + 'a {
        Shown { names: self, what }
    }

    /// The ticket of words, in the form of [`Ticket`]'s `FromStr`; a word for an id is its name, or the id as
    /// a decimal number.
    ///
    /// ```
    /// use vimelosa_host::{NameError, Names, Range, Ticket};
    /// let mut names = Names::new();
    /// names.insert(3, "pump")?;
    /// let ticket = names.read_ticket("insert property 10 pump Literal");
    /// assert_eq!(ticket, Ok(Ticket::insert_property(10, 3, Range::Literal)));
    ///
    /// let error = names.read_ticket("insert class valve").unwrap_err();
    /// assert_eq!(error.to_string(), "read `valve`, expected a name or an id from 0 to 255");
    /// # Ok::<(), NameError>(())
    /// ```
    ///
    /// # Errors
    ///
    /// The word that cannot be read, and what was expected there.
    pub fn read_ticket(&self, words: &str) -> Result<Ticket, ParseError> {
        read_ticket(words, self)
    }
}

impl Vocabulary for Names {
    fn name_of(&self, id: u8) -> Option<&str> {
        self.name_of(id)
    }

    fn id_of(&self, name: &str) -> Option<u8> {
        self.id_of(name)
    }

    fn expected(&self) -> &'static str {
        "a name or an id from 0 to 255"
    }
}

/// A fact or a ticket, and the names to write it with.
struct Shown<'a, T> {
    names: &'a Names,
    what: T,
}

impl<T: Written> fmt::Display for Shown<'_, T> {
    fn fmt(&self, f: &mut fmt::Formatter<'_>) -> fmt::Result {
        self.what.write(f, self.names)
    }
}

/// The file's text: a line for each id, by ascending ids, with the id, a tab and the name. The given names
/// are left out.
///
/// ```
/// use vimelosa_host::{NameError, Names};
/// let mut names = Names::new();
/// names.insert(3, "pump")?;
/// names.insert(2, "machine")?;
/// assert_eq!(names.to_string(), "2\tmachine\n3\tpump\n");
/// # Ok::<(), NameError>(())
/// ```
impl fmt::Display for Names {
    fn fmt(&self, f: &mut fmt::Formatter<'_>) -> fmt::Result {
        self.iter().try_for_each(|(id, name)| writeln!(f, "{id}\t{name}"))
    }
}

/// The names of a file's text, in any order. Empty lines and lines that start with `#` are skipped. Lines may
/// end with CR LF, and the text may start with a byte order mark, as some editors write them.
///
/// ```
/// use vimelosa_host::{NameError, Names, NamesError};
/// let names: Names = "# pumps\n3\tpump\n".parse()?;
/// assert_eq!(names.id_of("pump"), Some(3));
///
/// let doubled = NamesError { line: 2, reason: NameError::DoubledId(3) };
/// assert_eq!("3\tpump\n3\tvalve\n".parse::<Names>(), Err(doubled));
/// # Ok::<(), NamesError>(())
/// ```
impl FromStr for Names {
    type Err = NamesError;

    fn from_str(text: &str) -> Result<Names, NamesError> {
        let mut names = Names::new();
        let text = text.strip_prefix(BYTE_ORDER_MARK).unwrap_or(text);
        for (line, content) in (1..).zip(text.lines()) {
            let read = if is_skipped(content) { Ok(()) } else { read_line(&mut names, content) };
            read.map_err(|reason| NamesError { line, reason })?;
        }
        Ok(names)
    }
}

fn is_skipped(line: &str) -> bool {
    line.is_empty() || line.starts_with('#')
}

fn read_line(names: &mut Names, line: &str) -> Result<(), NameError> {
    let (id, name) = line.split_once('\t').ok_or(NameError::BadLine)?;
    names.insert(id_of_digits(id).ok_or(NameError::BadId)?, name)
}
