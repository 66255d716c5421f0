//! The drawing as DOT text: a box for each class with its members, and arrows to the classes directly above.
//! In a small drawing the arrows go up, and dashed ones go from domain to range for the properties. In a
//! large one the arrows go left, so that the drawing grows downwards like a page, and the properties stand in
//! the boxes of their domains.

use crate::hierarchy::{lowest_members, Hierarchy};
use crate::text::{filled, named};
use std::collections::BTreeMap;
use vimelosa_host::{Graph, Names, Range};

/// A small drawing has at most so many classes.
const MOST_CLASSES: usize = 30;

/// The members in a box are broken into lines of about so many characters.
const BOX_WIDTH: usize = 28;

const SMALL: &str = "rankdir=BT, ranksep=0.6, nodesep=0.35";

const LARGE: &str = "rankdir=RL, ranksep=1.2, nodesep=0.12";

const FONT: &str = r#"fontname="Helvetica,Arial,sans-serif""#;

/// An arrow from a class to one directly above it.
const SUBCLASS: &str = r##"arrowhead=empty, color="#444444""##;

/// A line of a property.
const PROPERTY: &str = r##"style=dashed, color="#1f5fa8", arrowhead=vee, arrowtail=vee"##;

/// Text of a property.
const PROPERTY_TEXT: &str = r##"fontcolor="#1f5fa8", fontsize=10"##;

/// The DOT text of a graph's classes and properties.
pub fn drawing(graph: &Graph, names: &Names) -> String {
    let (classes, properties) = (Hierarchy::of_classes(graph), Hierarchy::of_properties(graph));
    let is_large = classes.ids().len() > MOST_CLASSES;
    Drawing { graph, names, classes, properties, is_large }.text()
}

struct Drawing<'a> {
    graph: &'a Graph,
    names: &'a Names,
    classes: Hierarchy,
    properties: Hierarchy,
    is_large: bool,
}

impl Drawing<'_> {
    fn text(&self) -> String {
        let layout = if self.is_large { LARGE } else { SMALL };
        let mut text = format!("digraph plant {{\n  graph [{layout}, bgcolor=\"white\"];\n");
        text += &format!("  node [shape=plain, {FONT}, fontsize=12];\n  edge [{FONT}, fontsize=10];\n");
        for &class in self.classes.ids() {
            text += &self.class_box(class);
        }
        for &class in self.classes.ids() {
            for above in self.classes.directly_above(class) {
                text += &format!("  c{class} -> c{above} [{SUBCLASS}];\n");
            }
        }
        if !self.is_large {
            for ((domain, range), labels) in self.property_labels() {
                text += &property_arrow(domain, range, &labels.join("<BR/>"));
            }
        }
        text + "}\n"
    }

    /// A class, below a line its members, and in a large drawing below another the properties that it is the
    /// domain of.
    fn class_box(&self, class: u8) -> String {
        let mut rows = row(r##"BGCOLOR="#e8eef5""##, &format!("<B>{}</B>", self.named(class)));
        let members = lowest_members(self.graph, &self.classes, class);
        if !members.is_empty() {
            let lines = filled(self.names, &members, BOX_WIDTH, BOX_WIDTH);
            rows += &left_row(lines.iter().map(|line| escaped(line)));
        }
        let properties = self.properties.ids().iter();
        let own: Vec<&u8> = properties.filter(|&&id| self.graph.domain_of(id) == Some(class)).collect();
        if self.is_large && !own.is_empty() {
            rows += &left_row(own.into_iter().map(|&property| self.property_line(property)));
        }
        format!("  c{class} [label={}];\n", table(r#"CELLBORDER="1" CELLPADDING="5""#, &rows))
    }

    /// A property and its range in a line of a box.
    fn property_line(&self, property: u8) -> String {
        let range = match self.graph.range_of(property) {
            Some(Range::Class { class, .. }) => self.named(class),
            _ => "Literal".to_owned(),
        };
        let text = format!("{} &#8594; {range}", self.label(property));
        format!(r##"<FONT COLOR="#1f5fa8" POINT-SIZE="10">{text}</FONT>"##)
    }

    /// The properties of each domain and range: one arrow stands for all of them.
    fn property_labels(&self) -> BTreeMap<(u8, Range), Vec<String>> {
        let mut labels: BTreeMap<(u8, Range), Vec<String>> = BTreeMap::new();
        for &property in self.properties.ids() {
            if let (Some(domain), Some(range)) =
                (self.graph.domain_of(property), self.graph.range_of(property))
            {
                labels.entry((domain, range)).or_default().push(self.label(property));
            }
        }
        labels
    }

    /// A property's name, whether it is exclusive, and the properties directly above it.
    fn label(&self, property: u8) -> String {
        let above: Vec<String> =
            self.properties.directly_above(property).iter().map(|&id| self.named(id)).collect();
        let under = (!above.is_empty()).then(|| format!("under {}", above.join(", ")));
        let exclusive = self.graph.is_exclusive(property).then(|| "exclusive".to_owned());
        let notes: Vec<String> = exclusive.into_iter().chain(under).collect();
        match notes.is_empty() {
            true => self.named(property),
            false => format!("{} <I>({})</I>", self.named(property), notes.join(", ")),
        }
    }

    fn named(&self, id: u8) -> String {
        escaped(&named(self.names, id))
    }
}

/// The arrow from a domain to a range. Each domain has a mark Literal of its own, below it. From a class to
/// itself the arrow goes by way of its label, which also stands below: dot would put it across other arrows.
fn property_arrow(domain: u8, range: Range, label: &str) -> String {
    let label = table(r#"CELLBORDER="0" CELLPADDING="1""#, &row(r#"BGCOLOR="white""#, label));
    match range {
        Range::Literal => format!(
            "  l{domain} [shape=note, color=\"#1f5fa8\", {PROPERTY_TEXT}, label=\"Literal\"];\n  \
             l{domain} -> c{domain} [dir=back, {PROPERTY}, {PROPERTY_TEXT}, label={label}];\n"
        ),
        Range::Class { class, .. } if class == domain => format!(
            "  p{domain} [{PROPERTY_TEXT}, label={label}];\n  \
             p{domain} -> c{domain} [dir=none, {PROPERTY}];\n  \
             p{domain} -> c{domain} [constraint=false, {PROPERTY}];\n"
        ),
        Range::Class { class, .. } => {
            format!(
                "  c{domain} -> c{class} [constraint=false, {PROPERTY}, {PROPERTY_TEXT}, label={label}];\n"
            )
        }
    }
}

fn table(look: &str, rows: &str) -> String {
    format!(r#"<<TABLE BORDER="0" CELLSPACING="0" {look}>{rows}</TABLE>>"#)
}

fn row(look: &str, text: &str) -> String {
    format!("<TR><TD {look}>{text}</TD></TR>")
}

/// Lines that start at the left of the box.
fn left_row(lines: impl Iterator<Item = String>) -> String {
    let text: String = lines.map(|line| line + r#"<BR ALIGN="LEFT"/>"#).collect();
    row(r#"ALIGN="LEFT" BALIGN="LEFT""#, &text)
}

/// Text for a label: what HTML reads as its own is written as its character's name, and dot reads a backslash
/// twice where one is meant.
fn escaped(text: &str) -> String {
    let escape = |c: char| match c {
        '&' => "&amp;".to_owned(),
        '<' => "&lt;".to_owned(),
        '>' => "&gt;".to_owned(),
        '"' => "&quot;".to_owned(),
        '\\' => "\\\\".to_owned(),
        c => c.to_string(),
    };
    text.chars().map(escape).collect()
}
