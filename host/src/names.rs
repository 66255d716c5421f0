//! Names for ids, kept beside a graph in a file of text.

use crate::fact::RESOURCE;
use crate::range::MARK;
use crate::{words, NameError};
use std::collections::BTreeMap;
use std::fmt;

/// The ids whose names are given.
const GIVEN: [(u8, &str); 2] = [(RESOURCE, words::RESOURCE), (MARK, words::LITERAL)];

/// The most bytes of a name.
const LONGEST_NAME: usize = 255;

/// Names for ids: an id has at most one name, and no two ids have the same. Id 0 is always `Resource` and
/// id 1 `Literal`. A name has 1 to 255 bytes, no white space, control or invisible characters; it is not
/// digits alone, which would be an id, and does not start with `#`, as a remark in the file does. `Pump` and
/// `pump` are two names.
///
/// ```
/// use vimelosa_host::{Graph, Names, Ticket};
/// let names: Names = "2\tmachine\n3\tpump\n".parse()?;
/// let ticket = names.read_ticket("insert subclass pump machine")?;
/// assert_eq!(ticket, Ticket::insert_subclass(3, 2));
///
/// let mut graph = Graph::fresh();
/// graph.apply(ticket)?;
/// let facts: Vec<String> = graph.all_facts().map(|fact| names.show(fact).to_string()).collect();
/// assert_eq!(facts[..3], ["class Resource", "class machine", "class pump"]);
/// # Ok::<(), Box<dyn std::error::Error>>(())
/// ```
#[derive(Clone, PartialEq, Eq)]
pub struct Names {
    names: BTreeMap<u8, String>,
    ids: BTreeMap<String, u8>,
}

impl Names {
    /// The given names alone.
    ///
    /// ```
    /// use vimelosa_host::Names;
    /// let names = Names::new();
    /// assert_eq!((names.name_of(0), names.name_of(1)), (Some("Resource"), Some("Literal")));
    /// assert_eq!(names.iter().count(), 0);
    /// ```
    pub fn new() -> Names {
        let mut names = Names { names: BTreeMap::new(), ids: BTreeMap::new() };
        for (id, name) in GIVEN {
            names.put(id, name);
        }
        names
    }

    fn put(&mut self, id: u8, name: &str) {
        self.names.insert(id, name.to_string());
        self.ids.insert(name.to_string(), id);
    }

    /// The id's name, if it has one.
    ///
    /// ```
    /// use vimelosa_host::Names;
    /// assert_eq!(Names::new().name_of(0), Some("Resource"));
    /// assert_eq!(Names::new().name_of(2), None);
    /// ```
    pub fn name_of(&self, id: u8) -> Option<&str> {
        self.names.get(&id).map(String::as_str)
    }

    /// The name's id, if it has one.
    ///
    /// ```
    /// use vimelosa_host::Names;
    /// assert_eq!(Names::new().id_of("Literal"), Some(1));
    /// assert_eq!(Names::new().id_of("pump"), None);
    /// ```
    pub fn id_of(&self, name: &str) -> Option<u8> {
        self.ids.get(name).copied()
    }

    /// Gives an id a name. An id that has one is to lose it first, by [`Names::remove`].
    ///
    /// ```
    /// use vimelosa_host::{NameError, Names};
    /// let mut names = Names::new();
    /// names.insert(3, "pump")?;
    /// assert_eq!(names.insert(3, "valve"), Err(NameError::DoubledId(3)));
    /// assert_eq!(names.insert(4, "pump"), Err(NameError::DoubledName("pump".to_string())));
    /// assert_eq!(names.insert(4, "dosing pump"), Err(NameError::BadName));
    /// # Ok::<(), NameError>(())
    /// ```
    ///
    /// # Errors
    ///
    /// [`NameError::DoubledId`], [`NameError::DoubledName`] or [`NameError::BadName`]; nothing has changed
    /// then.
    pub fn insert(&mut self, id: u8, name: &str) -> Result<(), NameError> {
        if self.names.contains_key(&id) {
            return Err(NameError::DoubledId(id));
        }
        self.check_new(name)?;
        self.put(id, name);
        Ok(())
    }

    fn check_new(&self, name: &str) -> Result<(), NameError> {
        match self.ids.contains_key(name) {
            true => Err(NameError::DoubledName(name.to_string())),
            false if is_name(name) => Ok(()),
            false => Err(NameError::BadName),
        }
    }

    /// Gives a name the lowest id that has none and is not taken otherwise, and answers the id.
    ///
    /// ```
    /// use vimelosa_host::{Graph, Kind, NameError, Names, Refusal, Ticket};
    /// let mut graph = Graph::fresh();
    /// graph.apply(Ticket::insert_literal(2))?;
    /// // A graph has an id as a class, a property, an individual or a literal, whose bodies are their ids.
    /// let is_taken = |id| Kind::ALL[..4].iter().any(|kind| graph.body(*kind).contains(&id));
    ///
    /// let mut names = Names::new();
    /// assert_eq!(names.add("pump", is_taken), Ok(3));
    /// assert_eq!(names.add("valve", |_| true), Err(NameError::NoFreeId));
    /// # Ok::<(), Refusal>(())
    /// ```
    ///
    /// # Errors
    ///
    /// [`NameError::DoubledName`], [`NameError::BadName`] or [`NameError::NoFreeId`]; nothing has changed
    /// then.
    pub fn add(&mut self, name: &str, is_taken: impl Fn(u8) -> bool) -> Result<u8, NameError> {
        self.check_new(name)?;
        let is_free = |id: &u8| !self.names.contains_key(id) && !is_taken(*id);
        let id = (0..=u8::MAX).find(is_free).ok_or(NameError::NoFreeId)?;
        self.put(id, name);
        Ok(id)
    }

    /// Takes an id's name away and answers it. The given names stay.
    ///
    /// ```
    /// use vimelosa_host::{NameError, Names};
    /// let mut names = Names::new();
    /// names.insert(3, "pump")?;
    /// assert_eq!(names.remove(3), Some("pump".to_string()));
    /// assert_eq!(names.remove(3), None);
    /// assert_eq!(names.remove(0), None);
    /// # Ok::<(), NameError>(())
    /// ```
    pub fn remove(&mut self, id: u8) -> Option<String> {
        if is_given(id) {
            return None;
        }
        let name = self.names.remove(&id)?;
        self.ids.remove(&name);
        Some(name)
    }

    /// The ids and their names, by ascending ids, without the given ones.
    ///
    /// ```
    /// use vimelosa_host::{NameError, Names};
    /// let mut names = Names::new();
    /// names.insert(3, "pump")?;
    /// assert_eq!(names.iter().collect::<Vec<_>>(), [(3, "pump")]);
    /// # Ok::<(), NameError>(())
    /// ```
    pub fn iter(&self) -> impl Iterator<Item = (u8, &str)> + '_ {
        let all = self.names.iter().map(|(id, name)| (*id, name.as_str()));
        all.filter(|(id, _)| !is_given(*id))
    }
}

impl Default for Names {
    fn default() -> Names {
        Names::new()
    }
}

/// The ids and their names, without the given ones.
///
/// ```
/// use vimelosa_host::{Names, NamesError};
/// let names: Names = "2\tmachine\n3\tpump\n".parse()?;
/// assert_eq!(format!("{names:?}"), r#"Names {2: "machine", 3: "pump"}"#);
/// # Ok::<(), NamesError>(())
/// ```
impl fmt::Debug for Names {
    fn fmt(&self, f: &mut fmt::Formatter<'_>) -> fmt::Result {
        f.write_str("Names ")?;
        f.debug_map().entries(self.iter()).finish()
    }
}

fn is_given(id: u8) -> bool {
    GIVEN.iter().any(|given| given.0 == id)
}

/// Whether a name can be read back from a line of a file and from a ticket's words.
fn is_name(name: &str) -> bool {
    let is_number = name.bytes().all(|byte| byte.is_ascii_digit());
    let has_length = (1..=LONGEST_NAME).contains(&name.len());
    let is_unseen = |letter: char| letter.is_whitespace() || letter.is_control() || is_invisible(letter);
    has_length && !is_number && !name.contains(is_unseen) && !name.starts_with('#')
}

/// Letters of no width, marks that turn the direction of writing, and code points that are no letters: with
/// them two names could look the same. The joiners of some scripts are letters like others.
fn is_invisible(letter: char) -> bool {
    matches!(
        letter,
        '\u{ad}' | '\u{200b}' | '\u{200e}'..='\u{200f}' | '\u{202a}'..='\u{202e}' | '\u{2060}'..='\u{206f}'
            | '\u{feff}' | '\u{fff9}'..='\u{ffff}'
    )
}
