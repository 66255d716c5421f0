//! Whose tickets `apply` runs: anyone's by the plain calls, an operator's by the operators' calls.

use clap::ArgMatches;
use vimelosa_host::{Change, Graph, Refusal, RefusedTicket, Ticket};

#[derive(Clone, Copy, PartialEq, Eq)]
pub enum Sender {
    Anyone,
    Operator,
}

impl Sender {
    /// By the words of the command.
    pub fn of(matches: &ArgMatches) -> Sender {
        match matches.get_flag("operator") {
            true => Sender::Operator,
            false => Sender::Anyone,
        }
    }

    /// Runs all tickets, and answers for each.
    pub fn apply_all(self, graph: &mut Graph, tickets: &[Ticket]) -> Vec<Result<(), Refusal>> {
        match self {
            Sender::Anyone => graph.apply_all(tickets),
            Sender::Operator => graph.apply_all_as_operator(tickets),
        }
    }

    /// Runs all tickets if none of them is refused.
    pub fn apply_all_or_none(self, graph: &mut Graph, tickets: &[Ticket]) -> Result<Change, RefusedTicket> {
        match self {
            Sender::Anyone => graph.apply_all_or_none(tickets),
            Sender::Operator => graph.apply_all_or_none_as_operator(tickets),
        }
    }
}
