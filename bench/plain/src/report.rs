//! The report of a run: a line for each operation, two for each link, and `end`.
use crate::script::Script;
use crate::table::{Outcome, Table};
use std::io::Write;

pub fn push_hex(text: &mut Vec<u8>, bytes: &[u8]) {
    if bytes.is_empty() {
        text.push(b'-');
    }
    for byte in bytes {
        text.push(b"0123456789abcdef"[usize::from(byte >> 4)]);
        text.push(b"0123456789abcdef"[usize::from(byte & 15)]);
    }
}

/// The link and the position that a place word tells, if it tells any.
fn place_of(word: u64) -> Option<(usize, usize)> {
    (word != 0).then(|| ((word >> 32) as usize, word as u32 as usize - 1))
}

/// The operations that each link accepted, in their order.
fn orders_of(links: usize, places: &[u64]) -> Vec<Vec<usize>> {
    let mut orders = vec![vec![]; links];
    for (number, word) in places.iter().enumerate() {
        if let Some((link, position)) = place_of(*word) {
            let order: &mut Vec<usize> = &mut orders[link];
            if order.len() <= position {
                order.resize(position + 1, 0);
            }
            order[position] = number / 8;
        }
    }
    orders
}

fn push_outcome(text: &mut Vec<u8>, outcome: &Option<Outcome>, place: u64) -> std::io::Result<()> {
    match outcome {
        Some(Outcome::Opened { slot, version, link }) => writeln!(text, "open {slot} {version} {link}"),
        Some(Outcome::Answered { id, payload }) => {
            write!(text, "call {id} answered ")?;
            push_hex(text, payload);
            writeln!(text, " -")
        }
        None => match place_of(place) {
            Some((link, position)) => writeln!(text, "placed {link} {position}"),
            None => unreachable!("each operation is done"),
        },
    }
}

pub fn report(script: &Script, table: &Table) -> std::io::Result<Vec<u8>> {
    let (mut text, places) = (vec![], &table.words[table.places..]);
    for (number, (client, own)) in script.operations.iter().enumerate() {
        write!(text, "{client}.{own} ")?;
        push_outcome(&mut text, &table.outcomes[number], places[8 * number])?;
    }
    let orders = orders_of(script.links.len(), places);
    for (link, ((spec, home), order)) in script.links.iter().zip(&table.homes).zip(&orders).enumerate() {
        let (accepted, took) = (order.len(), &home.link.taken);
        write!(text, "link {link} {} accepted {accepted} placed {accepted} took {} ", spec.name, took.len())?;
        push_hex(&mut text, &took[..took.len().min(32)]);
        write!(text, "\norder {link}")?;
        for number in order {
            let (client, own) = script.operations[*number];
            write!(text, " {client}.{own}.0")?;
        }
        text.push(b'\n');
    }
    text.extend_from_slice(b"end\n");
    Ok(text)
}
