//! The kinds of facts, with the numbers of documents 01 and 02.

/// The eleven kinds of facts.
#[derive(Clone, Copy, PartialEq, Eq, PartialOrd, Ord, Hash, Debug)]
#[repr(u8)]
pub enum Kind {
    /// Cl
    Class = 1,
    /// Pr
    Property = 2,
    /// Ind
    Individual = 3,
    /// Lit
    Literal = 4,
    /// CSub
    Subclass = 5,
    /// PSub
    Subproperty = 6,
    /// Dom
    Domain = 7,
    /// Rng
    Range = 8,
    /// CI
    Member = 9,
    /// PI
    Value = 10,
    /// Excl, of document 02
    Exclusive = 11,
}

impl Kind {
    /// All kinds, in their order in an image.
    pub const ALL: [Kind; 11] = [
        Kind::Class,
        Kind::Property,
        Kind::Individual,
        Kind::Literal,
        Kind::Subclass,
        Kind::Subproperty,
        Kind::Domain,
        Kind::Range,
        Kind::Member,
        Kind::Value,
        Kind::Exclusive,
    ];

    /// The number of document 01 or 02.
    ///
    /// ```
    /// use vimelosa_host::Kind;
    /// assert_eq!((Kind::Value.number(), Kind::Exclusive.number()), (10, 11));
    /// ```
    pub fn number(self) -> u8 {
        self as u8
    }

    /// How many ids a fact of the kind has, which is its length in an image.
    ///
    /// ```
    /// use vimelosa_host::Kind;
    /// assert_eq!([Kind::Class, Kind::Subclass, Kind::Value].map(Kind::width), [1, 2, 3]);
    /// assert_eq!(Kind::Exclusive.width(), 1);
    /// ```
    pub const fn width(self) -> usize {
        match self {
            Kind::Class | Kind::Property | Kind::Individual | Kind::Literal | Kind::Exclusive => 1,
            Kind::Value => 3,
            _ => 2,
        }
    }
}

/// The kind of a number, or the number itself where no kind has it.
///
/// ```
/// use vimelosa_host::Kind;
/// assert_eq!(Kind::try_from(5), Ok(Kind::Subclass));
/// assert_eq!(Kind::try_from(12), Err(12));
/// ```
impl TryFrom<u8> for Kind {
    type Error = u8;

    fn try_from(number: u8) -> Result<Kind, u8> {
        Kind::ALL.into_iter().find(|kind| kind.number() == number).ok_or(number)
    }
}
