//! Graphs as texts through the safe calls: the worked examples, texts that are refused, what survives writing
//! and reading, outputs that are too short. `tests/differential` holds the calls beside the independent
//! implementation.

mod generator;
mod independent;

use generator::graphs::{broken, grown, image};
use generator::tickets::{records, ALL_IDS};
use generator::{rounds, Random};
use vimelosa_host::{check_image, read_triples, write_triples, write_triples_raw};
use vimelosa_host::{Fact, Graph, Kind, Range, Refusal, Rule, Ticket};
use vimelosa_host::{LONGEST_LINE, LONGEST_TEXT, MOST_FACTS};

/// P1 to P7 of document 01.
const CASES: [[u8; 5]; 7] = [
    [1, 1, 2, 0, 0],
    [1, 5, 3, 2, 0],
    [1, 9, 4, 3, 0],
    [2, 9, 4, 2, 0],
    [1, 5, 2, 3, 0],
    [1, 2, 5, 2, 1],
    [1, 10, 6, 7, 5],
];

fn graph_of_cases() -> Graph {
    let mut graph = Graph::fresh();
    let answers = graph.apply_all(&CASES.map(Ticket::of_bytes));
    assert_eq!(answers.iter().filter(|answer| answer.is_err()).count(), 1);
    graph
}

/// A line by the names of its terms: `R`, `L` and the other capitals are IRIs of RDF Schema, a number is an
/// id, and what is quoted a literal.
fn line(words: &str) -> String {
    let rdf = |name: &str| format!("<http://www.w3.org/1999/02/22-rdf-syntax-ns#{name}>");
    let rdfs = |name: &str| format!("<http://www.w3.org/2000/01/rdf-schema#{name}>");
    let term = |word: &str| match word {
        "R" => rdfs("Resource"),
        "L" => rdfs("Literal"),
        "C" => rdfs("Class"),
        "P" => rdf("Property"),
        "type" => rdf(word),
        "subClassOf" | "subPropertyOf" | "domain" | "range" => rdfs(word),
        number if number.bytes().all(|byte| byte.is_ascii_digit()) => format!("<urn:id:{number}>"),
        other => other.to_string(),
    };
    let terms: Vec<String> = words.split(' ').map(term).collect();
    format!("{} .\n", terms.join(" "))
}

fn text_of(lines: &[&str]) -> String {
    lines.iter().map(|words| line(words)).collect()
}

const LINES: [&str; 13] = [
    "R type C",
    "2 type C",
    "3 type C",
    "5 type P",
    "2 subClassOf R",
    "3 subClassOf R",
    "3 subClassOf 2",
    "5 domain 2",
    "5 range L",
    "4 type R",
    "6 type R",
    "6 type 2",
    "6 5 \"7\"",
];

fn read(text: &str) -> Result<Graph, Refusal> {
    Graph::from_triples(text.as_bytes())
}

fn broken_rule(rule: Rule) -> Result<Graph, Refusal> {
    Err(Refusal::Inconsistent { rule })
}

#[test]
fn the_text_of_the_cases() {
    let graph = graph_of_cases();
    let text = graph.to_triples();
    assert_eq!(text, text_of(&LINES));
    assert_eq!((graph.count_facts(), text.len()), (16, 1273));
    let lengths: Vec<usize> = text.lines().map(|line| line.len() + 1).collect();
    assert_eq!(lengths, [145, 108, 108, 117, 111, 111, 74, 70, 105, 111, 111, 74, 28]);
    assert_eq!(read(&text), Ok(graph));
    assert_eq!(Graph::fresh().to_triples(), line("R type C"));
}

#[test]
fn a_lone_literal_is_not_in_the_text() {
    let mut graph = graph_of_cases();
    graph.apply(Ticket::insert_literal(9)).unwrap();
    assert_eq!(graph.to_triples(), text_of(&LINES));
    assert_eq!(read(&graph.to_triples()), Ok(graph_of_cases()));
}

/// The lines of exclusive properties come last, and one value of two individuals is against E2.
#[test]
fn exclusive_properties_have_lines() {
    let mut graph = graph_of_cases();
    graph.apply(Ticket::insert_exclusive(5)).unwrap();
    let text = graph.to_triples();
    assert_eq!(text, text_of(&LINES) + &line("5 type <urn:mark:excl>"));
    assert_eq!(read(&text), Ok(graph));
    let second = text_of(&["8 type R", "8 type 2", "8 5 \"7\""]);
    assert!(read(&(text_of(&LINES) + &second)).is_ok());
    assert_eq!(read(&(text + &second)), broken_rule(Rule::E2));
}

#[test]
fn lines_stand_in_any_order_and_repeat() {
    let backwards: String = LINES.iter().rev().map(|words| line(words).repeat(2)).collect();
    assert_eq!(read(&backwards), Ok(graph_of_cases()));
}

#[test]
fn one_line_more() {
    let mut exclusive = graph_of_cases();
    exclusive.apply(Ticket::insert_exclusive(5)).unwrap();
    for (more, expected) in [
        ("4 type R", Ok(graph_of_cases())),
        ("6 5 7", Err(Refusal::OutsideProfile)),
        ("4 5 7", Err(Refusal::OutsideProfile)),
        ("7 type R", broken_rule(Rule::H2)),
        ("4 5 \"7\"", broken_rule(Rule::R24)),
        ("4 type 9", broken_rule(Rule::R11)),
        ("R type P", broken_rule(Rule::R4)),
        ("L type C", Err(Refusal::OutsideProfile)),
        ("5 domain L", Err(Refusal::OutsideProfile)),
        ("6 type L", Err(Refusal::OutsideProfile)),
        ("6 5 L", Err(Refusal::OutsideProfile)),
        ("5 type <urn:mark:excl>", Ok(exclusive)),
        ("6 type <urn:mark:excl>", broken_rule(Rule::E1)),
        ("R type <urn:mark:excl>", broken_rule(Rule::E1)),
        ("L type <urn:mark:excl>", Err(Refusal::OutsideProfile)),
        ("5 5 <urn:mark:excl>", Err(Refusal::OutsideProfile)),
        ("5 type <urn:mark:exclusive>", Err(Refusal::OutsideProfile)),
        ("5 range \"7\"", Err(Refusal::OutsideProfile)),
        ("\"7\" 5 6", Err(Refusal::OutsideProfile)),
        ("6 type type", Err(Refusal::OutsideProfile)),
        ("6 P 2", Err(Refusal::OutsideProfile)),
    ] {
        let text = text_of(&LINES);
        assert_eq!(read(&(text.clone() + &line(more))), expected, "{more} last");
        assert_eq!(read(&(line(more) + &text)), expected, "{more} first");
    }
}

#[test]
fn texts_outside_the_profile() {
    let text = text_of(&LINES);
    for (what, outside) in [
        ("no last newline", text.trim_end().to_string()),
        ("carriage returns", text.replace('\n', "\r\n")),
        ("a tab", text.replacen(' ', "\t", 1)),
        ("two blanks", text.replacen(' ', "  ", 1)),
        ("no blank before the full stop", text.replacen(" .", ".", 1)),
        ("a blank at the start", format!(" {text}")),
        ("a blank at the end", text.replacen(".\n", ". \n", 1)),
        ("an empty line", format!("{text}\n")),
        ("a comment", format!("# plant\n{text}")),
        ("a comment behind a line", text.replacen(".\n", ". # plant\n", 1)),
        ("a byte order mark", format!("\u{feff}{text}")),
        ("capitals", text.replacen("urn", "URN", 1)),
        ("an escape", text.replacen("\"7\"", "\"\\u0037\"", 1)),
        ("a language", text.replacen("\"7\"", "\"7\"@en", 1)),
        ("a datatype", text.replacen("\"7\"", "\"7\"^^<http://www.w3.org/2001/XMLSchema#byte>", 1)),
        ("a graph's name", text.replacen(" .\n", " <urn:id:9> .\n", 1)),
        ("a null byte", format!("{text}\0")),
        ("id 0", text.replacen("<urn:id:4>", "<urn:id:0>", 1)),
        ("id 1", text.replacen("<urn:id:4>", "<urn:id:1>", 1)),
        ("id 256", text.replacen("<urn:id:4>", "<urn:id:256>", 1)),
        ("a number that passes 32 bits", text.replacen("<urn:id:4>", "<urn:id:4294967300>", 1)),
        ("a number that passes 64 bits", text.replacen("<urn:id:4>", "<urn:id:18446744073709551620>", 1)),
        ("a leading zero", text.replacen("<urn:id:4>", "<urn:id:04>", 1)),
        ("a sign", text.replacen("<urn:id:4>", "<urn:id:+4>", 1)),
        ("no number", text.replacen("<urn:id:4>", "<urn:id:>", 1)),
        ("literal 0", text.replacen("\"7\"", "\"0\"", 1)),
        ("literal 1", text.replacen("\"7\"", "\"1\"", 1)),
        ("literal 256", text.replacen("\"7\"", "\"256\"", 1)),
        ("a literal with a leading zero", text.replacen("\"7\"", "\"07\"", 1)),
    ] {
        assert_ne!(outside, text, "{what}");
        assert_eq!(read(&outside), Err(Refusal::OutsideProfile), "{what}");
    }
}

/// The whole text is judged before its facts are counted, and these before the rules.
#[test]
fn refusals_of_a_text_in_order() {
    let links = (2..=255).flat_map(|a| (2..=255).map(move |b| format!("{a} subClassOf {b}")));
    let lines: Vec<String> = links.take(MOST_FACTS + 1).map(|words| line(&words)).collect();
    assert_eq!(read(&lines.concat()), Err(Refusal::TooMany));
    assert_eq!(read(&(lines.concat() + "\n")), Err(Refusal::OutsideProfile));
    assert_eq!(read(&(lines.concat() + &lines[0])), Err(Refusal::TooMany));
    assert_eq!(read(&(lines[..MOST_FACTS].concat() + &lines[0])), broken_rule(Rule::R7));
    assert_eq!(read(""), broken_rule(Rule::H1));
}

#[test]
fn the_longest_lines() {
    assert_eq!(line("R type P").len(), LONGEST_LINE);
    assert_eq!((line("R type R").len(), line("R subPropertyOf R").len()), (148, 151));
    assert_eq!(LONGEST_TEXT, 315_392);
    assert_eq!(read(&line("R type P")), broken_rule(Rule::R15));
}

/// A graph of 254 properties and the 1,285 links that fill the table: the longest text of 2,048 facts.
#[test]
fn the_longest_text_of_a_graph() {
    let mut graph = Graph::fresh();
    let resource = Range::class(0).unwrap();
    let properties: Vec<Ticket> = (2..=255).map(|p| Ticket::insert_property(p, 0, resource)).collect();
    assert!(graph.apply_all(&properties).iter().all(Result::is_ok));
    let links = (100..109).flat_map(|low| (109..=255).map(move |high| (low, high)));
    for (low, high) in links.take(MOST_FACTS - graph.count_facts()) {
        graph.apply(Ticket::insert_subproperty(low, high)).unwrap();
    }
    assert_eq!(graph.count_facts(), MOST_FACTS);
    let text = graph.to_triples();
    assert_eq!(text.len(), 189_256);
    assert_eq!(read(&text), Ok(graph));
}

/// The graph without the literals that stand in no value.
fn without_lone_literals(graph: &Graph) -> Graph {
    let mut rest = graph.clone();
    for literal in graph.body(Kind::Literal) {
        if !graph.facts(Kind::Value).any(|fact| fact.ids()[1] == *literal) {
            rest.apply(Ticket::delete_literal(*literal)).unwrap();
        }
    }
    rest
}

/// All but lone literals survives, whatever the order of the lines; and what was read is written the same.
#[test]
fn graphs_survive_writing_and_reading() {
    let mut random = Random::for_test("graphs_survive");
    for round in 0..rounds(60) {
        let grown = grown(&mut random, &ALL_IDS[round % 4], 10 + 2 * round, MOST_FACTS);
        let graph = Graph::load(&image(&grown)).unwrap();
        let text = graph.to_triples();
        let kept = without_lone_literals(&graph);
        assert_eq!(read(&text).as_ref(), Ok(&kept));
        assert_eq!(kept.to_triples(), text);
        let has_line = |fact: &Fact| !matches!(fact.kind(), Kind::Individual | Kind::Literal);
        assert_eq!(text.lines().count(), graph.all_facts().filter(has_line).count());
        let mut lines: Vec<&str> = text.split_inclusive('\n').collect();
        lines.push(random.pick(&lines));
        random.shuffle(&mut lines);
        assert_eq!(read(&lines.concat()), Ok(kept));
    }
}

/// Outputs of every length up to what is needed: nothing is written, and what is needed is told.
#[test]
fn a_short_output_is_told_how_many_bytes_are_needed() {
    let mut random = Random::for_test("a_short_output_of_triples");
    for round in 0..rounds(40) {
        let list = records(&mut random, &ALL_IDS[round % 4], 30);
        let tickets: Vec<Ticket> = list.chunks(5).map(|bytes| bytes.try_into().unwrap()).collect();
        let mut graph = Graph::fresh();
        assert_eq!(graph.apply_all(&tickets).len(), 30);
        let text = graph.to_triples();
        let kept = without_lone_literals(&graph);

        let mut output = vec![99; random.below(text.len())];
        let refused = Err(Refusal::ShortOutput { needed: text.len() });
        assert_eq!(write_triples(graph.image(), &mut output), refused);
        assert!(output.iter().all(|byte| *byte == 99));
        output.resize(text.len() + 3, 99);
        assert_eq!(write_triples(graph.image(), &mut output), Ok(text.len()));
        assert_eq!(output, [text.as_bytes(), &[99; 3]].concat());

        let needed = kept.image().len();
        let mut output = vec![99; random.below(needed)];
        assert_eq!(read_triples(text.as_bytes(), &mut output), Err(Refusal::ShortOutput { needed }));
        assert!(output.iter().all(|byte| *byte == 99));
        output.resize(needed + 3, 99);
        assert_eq!(read_triples(text.as_bytes(), &mut output), Ok(needed));
        assert_eq!(output, [kept.image(), &[99; 3]].concat());
    }
}

/// An image that cannot be read has no text: the refusal is that of the check, and nothing is written.
#[test]
fn an_image_is_refused_as_the_check_refuses_it() {
    let mut random = Random::for_test("an_image_is_refused");
    for round in 0..rounds(200) {
        let mut image = image(&broken(&mut random, &ALL_IDS[round % 4]));
        if random.is_one_in(4) {
            let at = random.below(image.len());
            image[at] = random.byte();
        }
        let mut output = vec![99; LONGEST_TEXT];
        let written = write_triples(&image, &mut output);
        assert_eq!(written.map(|_| ()), check_image(&image));
        let is_left = output[written.unwrap_or(0)..].iter().all(|byte| *byte == 99);
        assert!(is_left);
        if let Err(refusal) = written {
            assert_eq!(write_triples_raw(&image, &mut []), u64::from(refusal.number()));
        }
    }
}
