//! Facts, tickets and kinds in words: what is written is read back, and what cannot be read is told.

mod generator;
mod independent;

use generator::tickets::{bad_ticket, ticket, ALL_IDS};
use generator::{rounds, Random};
use independent::ticket::{asked_by, Asked as PlainAsked};
use vimelosa_host::{Asked, Fact, Kind, ParseError, Refusal, Ticket};

#[test]
fn kinds_are_read_back_from_their_words() {
    let words = "class property individual literal subclass subproperty domain range member value exclusive";
    assert!(words.split(' ').map(str::parse).eq(Kind::ALL.map(Ok::<Kind, ParseError>)));
    assert_eq!(Kind::ALL.map(|kind| kind.to_string()).join(" "), words);
    assert_eq!(format!("{:>8}|", Kind::Class), "   class|");
}

/// Words drawn so that facts of each kind come often, and words that are none too.
fn some_words(random: &mut Random) -> Vec<u32> {
    let mut word = || {
        let kind = random.byte() % 13;
        let ids = [(); 3].map(|_| if random.is_one_in(2) { random.byte() % 3 } else { random.byte() });
        let used = [0, 1, 1, 1, 1, 2, 2, 2, 2, 2, 3, 1].get(usize::from(kind)).copied().unwrap_or(3);
        let kept = if random.is_one_in(5) { 3 } else { used };
        let id = |place: usize| if place < kept { ids[place] } else { 0 };
        u32::from_be_bytes([kind, id(0), id(1), id(2)])
    };
    (0..rounds(20_000)).map(|_| word()).collect()
}

#[test]
fn facts_are_read_back_from_their_words() {
    let mut counts = [0; 12];
    for word in some_words(&mut Random::for_test("facts_are_read_back")) {
        let fact = Fact::try_from(word);
        assert_eq!(fact.is_ok(), independent::fact::Fact::of_word(word).is_some(), "{word:#x}");
        match fact {
            Ok(fact) => {
                assert_eq!(fact.word(), word);
                assert_eq!(fact.to_string().parse(), Ok(fact));
                counts[usize::from(fact.kind().number())] += 1;
            }
            Err(same) => assert_eq!(same, word),
        }
    }
    assert!(counts[1..].iter().all(|count| *count > 100), "{counts:?}");
}

#[test]
fn facts_stand_in_the_documents_order() {
    let facts = ["class 2", "property 5", "individual 4", "literal 7", "subclass 3 2", "subproperty 6 5"];
    let more = ["domain 5 2", "range 5 2", "range 5 Literal", "member 4 3", "value 4 6 5", "exclusive 5"];
    for text in facts.into_iter().chain(more) {
        assert_eq!(text.parse::<Fact>().unwrap().to_string(), text);
    }
    assert_eq!("value 4 6 5".parse(), Ok(Fact::Value { individual: 4, value: 6, property: 5 }));
    assert_eq!("range 5 1".parse::<Fact>(), "range 5 Literal".parse());
    assert_eq!(" subclass\t3  2\n".parse::<Fact>(), "subclass 3 2".parse());
}

/// What a ticket asks, in the terms of the independent implementation.
fn plain(asked: Asked) -> PlainAsked {
    let plain = |fact: Fact| independent::fact::Fact::of_word(fact.word()).unwrap();
    match asked {
        Asked::Insert(fact) => PlainAsked::Insert(vec![plain(fact)]),
        Asked::Delete(fact) => PlainAsked::Delete(plain(fact)),
        Asked::InsertProperty { property, domain, range } => PlainAsked::Insert(vec![
            plain(Fact::Property(property)),
            plain(Fact::Domain { property, class: domain }),
            plain(Fact::Range { property, range }),
        ]),
    }
}

/// Five bytes of any sort, of which most are tickets.
fn some_tickets(random: &mut Random) -> Vec<[u8; 5]> {
    let draw = |round: usize| match random.below(4) {
        0 => [(); 5].map(|_| random.byte()),
        1 => [(); 5].map(|_| random.byte() % 12),
        2 => bad_ticket(random, &ALL_IDS[round % 4]),
        _ => ticket(random, &ALL_IDS[round % 4]),
    };
    (0..rounds(20_000)).map(draw).collect()
}

#[test]
fn tickets_ask_what_the_independent_implementation_reads() {
    for bytes in some_tickets(&mut Random::for_test("tickets_ask")) {
        let asked = Ticket::of_bytes(bytes).asks();
        let numbered = asked.map(plain).map_err(|refusal| refusal.number() as u8);
        assert_eq!(numbered, asked_by(&bytes), "{bytes:02x?}");
    }
}

#[test]
fn tickets_are_read_back_from_their_words() {
    let (mut in_words, mut in_bytes) = (0, 0);
    for bytes in some_tickets(&mut Random::for_test("tickets_are_read_back")) {
        let ticket = Ticket::from(bytes);
        let text = ticket.to_string();
        assert_eq!(text.parse(), Ok(ticket));
        let hexadecimal: String = bytes.iter().map(|byte| format!("{byte:02x}")).collect();
        let as_bytes = format!("ticket {hexadecimal}");
        assert_eq!(as_bytes.to_uppercase().replace("TICKET", "ticket").parse(), Ok(ticket));
        if ticket.asks().is_ok() {
            assert!(text.starts_with("insert ") || text.starts_with("delete "), "{text}");
            in_words += 1;
        } else {
            assert_eq!(text, as_bytes);
            in_bytes += 1;
        }
    }
    assert!(in_words > 1_000 && in_bytes > 1_000);
}

#[test]
fn tickets_have_five_bytes() {
    for length in 0..12 {
        let bytes = vec![1; length];
        let ticket = Ticket::try_from(&bytes[..]);
        assert_eq!(ticket.is_ok(), length == 5);
        assert_eq!(ticket.err().unwrap_or(Refusal::BadLength), Refusal::BadLength);
    }
}

/// Reads each text and compares what is said of it: the word read, and what was expected.
fn assert_unread(texts: &[(&str, &str)], expected: &str) {
    for (text, read) in texts {
        let said = text.parse::<Ticket>().unwrap_err().to_string();
        let read = if read.is_empty() { "nothing".to_string() } else { format!("`{read}`") };
        assert_eq!(said, format!("read {read}, expected {expected}"));
    }
}

#[test]
fn words_that_are_no_ticket_are_told_apart() {
    assert_unread(
        &[("", ""), (" \n", ""), ("add class 2", "add"), ("Insert class 2", "Insert"), ("class 2", "class")],
        "insert, delete or ticket",
    );
    assert_unread(
        &[("insert", ""), ("insert clas 2", "clas"), ("delete domain 5 2", "domain"), ("insert 1 2", "1")],
        "a kind: class, property, individual, literal, subclass, subproperty, member, value, exclusive",
    );
    assert_unread(
        &[("insert class 256", "256"), ("delete class +2", "+2"), ("insert member 4 pump", "pump")],
        "an id from 0 to 255",
    );
    let marked = ["insert class 1", "delete member 4 Literal", "insert property 5 1 2", "insert value 4 1 5"];
    assert_unread(&marked.map(|text| (text, text)), "Literal, which is id 1, only as a range");
    let marked = ["insert exclusive 1", "delete exclusive Literal"];
    assert_unread(&marked.map(|text| (text, text)), "Literal, which is id 1, only as a range");
    let short = ["ticket", "ticket 01", "ticket 010102000g", "ticket 01010 20000", "ticket +101020000"];
    assert_unread(&short.map(|text| (text, text)), "`ticket` and ten hexadecimal digits");
}

#[test]
fn tickets_with_too_few_or_too_many_ids_are_told_their_form() {
    let form = |text: &str, form: &str| assert_unread(&[(text, text)], &format!("`{form}`"));
    form("insert class", "insert class CLASS");
    form("insert class 2 3", "insert class CLASS");
    form("insert property 5", "insert property PROPERTY DOMAIN RANGE");
    form("delete property 5 2 Literal", "delete property PROPERTY");
    form("delete subclass 3", "delete subclass CLASS SUPERCLASS");
    form("insert value 4 6", "insert value INDIVIDUAL VALUE PROPERTY");
    form("insert exclusive 5 2", "insert exclusive PROPERTY");
    form("delete exclusive", "delete exclusive PROPERTY");
}

#[test]
fn words_that_are_no_fact_are_told_apart() {
    let wrong = [
        ("range 5", "read `range 5`, expected `range PROPERTY RANGE`"),
        ("value 4 6", "read `value 4 6`, expected `value INDIVIDUAL VALUE PROPERTY`"),
        ("class 1", "read `class 1`, expected Literal, which is id 1, only as a range"),
        ("range 1 2", "read `range 1 2`, expected Literal, which is id 1, only as a range"),
        ("class -1", "read `-1`, expected an id from 0 to 255"),
        ("class \u{1b}[2J", "read `\\u{1b}[2J`, expected an id from 0 to 255"),
    ];
    for (text, message) in wrong {
        assert_eq!(text.parse::<Fact>().unwrap_err().to_string(), message);
    }
    let long = "x".repeat(5_000);
    let error = long.parse::<Kind>().unwrap_err().to_string();
    assert!(error.starts_with(&format!("read `{}…`, expected a kind: class", "x".repeat(60))));
    assert!(error.len() < 250);
}
