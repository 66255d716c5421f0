//! The start call from a shell: a container is to poll a port. All consequences of all tickets are in the
//! image already, so whoever polls the port is found by two look-ups, in whatever order the plant was
//! entered.
//!
//! `start_container IMAGE CONTAINER CLASS PROPERTY PORT` says who of the class has the port as value of the
//! property; it starts the container only if no other has. The names stand in `IMAGE.names`.

use std::error::Error;
use std::process::ExitCode;
use std::{env, fs};
use vimelosa_host::{Graph, Names};

/// Who of the class polls the port, by the names file.
fn pollers(graph: &Graph, names: &Names, [class, property, port]: [&str; 3]) -> Result<Vec<String>, String> {
    let id_of = |name: &str| names.id_of(name).ok_or(format!("{name}: no such name"));
    let members: Vec<u8> = graph.members_of(id_of(class)?).collect();
    let at_port = graph.holders_of(id_of(port)?, id_of(property)?);
    let found = at_port.filter(|individual| members.contains(individual));
    Ok(found.map(|individual| names.name_of(individual).unwrap_or("one without a name").to_owned()).collect())
}

fn start(arguments: &[String]) -> Result<ExitCode, Box<dyn Error>> {
    let (image, container, class, property, port) = match arguments {
        [image, container, class, property, port] => (image, container, class, property, port),
        _ => return Err("usage: start_container IMAGE CONTAINER CLASS PROPERTY PORT".into()),
    };
    let graph = Graph::load(&fs::read(image)?)?;
    let names: Names = fs::read_to_string(format!("{image}.names"))?.parse()?;
    let found = pollers(&graph, &names, [class, property, port])?;
    let others: Vec<&str> = found.iter().map(String::as_str).filter(|name| name != container).collect();
    if others.is_empty() {
        println!("{container} is started: no {class} {property} {port} yet.");
        return Ok(ExitCode::SUCCESS);
    }
    println!("{container} is not started: {} {property} {port}.", others.join(", "));
    Ok(ExitCode::FAILURE)
}

fn main() -> ExitCode {
    let arguments: Vec<String> = env::args().skip(1).collect();
    start(&arguments).unwrap_or_else(|failure| {
        eprintln!("start_container: {failure}");
        ExitCode::from(2)
    })
}
