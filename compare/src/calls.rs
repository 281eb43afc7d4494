//! Demand 3: lists of readings and printings at one indent, on one file.

use crate::enums::Numbers;
use crate::random::Rng;
use crate::sides::{fault, wanted, Fault, Port, Request, Source, Wanted, INDENTS, LONGEST};
use oracle::flatten::{COMMENT_WIDTH, NODE_WIDTH};

/// What counts when definitions agree: the tree, kinds, flags, the bytes of some kinds and of the comments, after the drop in parameters.
pub fn shape(text: &[u8], nodes: &[u32], comments: &[u32]) -> Vec<u8> {
    let records: Vec<&[u32]> = nodes.chunks(NODE_WIDTH).collect();
    let bytes = |record: &[u32]| &text[record[3] as usize..record[6] as usize];
    let mut notes: Vec<Vec<&[u8]>> = vec![Vec::new(); records.len()];
    for comment in comments.chunks(COMMENT_WIDTH) {
        notes[comment[1] as usize].push(bytes(comment));
    }
    let parameter = |at: usize| records[at][0] == 12 && records[records[at][1] as usize][0] == 11;
    let (mut depths, mut dropped) = (Vec::with_capacity(records.len()), Vec::with_capacity(records.len()));
    let mut out = Vec::new();
    let put = |out: &mut Vec<u8>, part: &[u8]| {
        out.extend_from_slice(&(part.len() as u32).to_le_bytes());
        out.extend_from_slice(part);
    };
    for (at, record) in records.iter().enumerate() {
        let parent = record[1] as usize;
        let top = record[1] == u32::MAX;
        depths.push(if top { 0 } else { depths[parent] + 1 });
        dropped.push(!top && (dropped[parent] || record[0] == 14 && parameter(parent)));
        if dropped[at] {
            continue;
        }
        let flags = if parameter(at) { record[2] & !3 } else { record[2] };
        for number in [depths[at], record[0], flags] {
            out.extend_from_slice(&number.to_le_bytes());
        }
        put(&mut out, if matches!(record[0], 16..=19 | 23..=28) { bytes(record) } else { &[] });
        let own: &[&[u8]] = if parameter(at) { &[] } else { &notes[at] };
        out.extend_from_slice(&(own.len() as u32).to_le_bytes());
        for note in own {
            put(&mut out, note);
        }
    }
    out
}

/// A length around what is needed.
fn size(rng: &mut Rng, need: usize, unit: usize) -> usize {
    match rng.below(10) {
        0 => 0,
        1 => rng.below(need + 1),
        2 => need.saturating_sub(1),
        3 => need.saturating_sub(unit),
        4..=6 => need,
        7 | 8 => need + rng.below(3 * unit),
        _ => need + rng.below(40 * unit),
    }
}

/// The fault where the two ricos differ on a text inside.
pub fn parted() -> Fault {
    fault("rico with the field rule of Change 4 differs from rico inside", String::new())
}

fn compared(wanted: &Wanted) -> bool {
    matches!(wanted.source, Source::Rico | Source::CutOtherwise)
}

/// One call for the enum members' numbers, tables and list around what is needed.
fn numbered(port: &mut Port, text: &[u8], wanted: &Wanted, rng: &mut Rng) -> Result<(), Fault> {
    let members = listed(wanted).map_or(0, <[i32]>::len);
    port.numbers(text, wanted, wanted.nodes.len(), wanted.comments.len(), size(rng, members, 1), rng).map(drop)
}

/// The numbers, if none is outside.
fn listed(wanted: &Wanted) -> Option<&[i32]> {
    match &wanted.numbers {
        Numbers::All(numbers) => Some(numbers),
        Numbers::Outside { .. } => None,
    }
}

/// What a list of calls or a pair came to. `printings`: None if the claim says nothing, else the number of accepted printings.
#[derive(Default)]
pub struct Made {
    pub printings: Option<usize>,
    /// Outside, by Change 4.
    pub outside: bool,
}

/// One list of calls, one by one and by one run. The claim is on accepted texts whose print is a text that may be read.
pub fn list(port: &mut Port, text: &[u8], indent: usize, length: usize, rng: &mut Rng) -> Result<Made, Fault> {
    let first = wanted(text, Some(indent));
    let made = |printings| Made { printings, outside: first.outside };
    if first.source == Source::RulesPart {
        return Err(parted());
    }
    if !compared(&first) || first.refusal.is_some() || first.prints[indent].len() > LONGEST {
        return Ok(made(None));
    }
    let print = first.prints[indent].clone();
    let second = wanted(&print, Some(indent));
    if second.source == Source::RulesPart {
        return Err(parted());
    }
    if !compared(&second) {
        return Ok(made(None));
    }
    if second.refusal.is_some() || second.prints[indent] != print {
        return Err(fault("demand 3: the print is refused or prints otherwise", format!("indent {indent}: {:?}", second.refusal)));
    }
    if shape(text, &first.nodes, &first.comments) != shape(&print, &second.nodes, &second.comments) {
        return Err(fault("demand 3: the print's definitions do not agree", format!("indent {indent}")));
    }
    numbered(port, text, &first, rng)?;
    numbered(port, &print, &second, rng)?;
    if listed(&first) != listed(&second) {
        return Err(fault("the print's enum numbers are others", format!("indent {indent}")));
    }
    let mut file = text.to_vec();
    let mut printings = 0;
    let mut requests = Vec::with_capacity(length);
    for _ in 0..length {
        let (now, stands): (&Wanted, &[u8]) = if printings > 0 { (&second, &print) } else { (&first, text) };
        let (nodes, comments) = (size(rng, now.nodes.len(), NODE_WIDTH), size(rng, now.comments.len(), COMMENT_WIDTH));
        if rng.percent(45) {
            requests.push(Request { prints: false, nodes, comments, out: 0 });
            port.read(&file, now, nodes, comments, rng)?;
        } else {
            let out = size(rng, print.len(), 1);
            requests.push(Request { prints: true, nodes, comments, out });
            if port.print(&file, now, indent as u32, nodes, comments, out, rng)? {
                printings += 1;
                file = port.out.part()[..print.len()].to_vec();
            }
        }
        let stands = if printings > 0 { &print } else { stands };
        if file != stands {
            return Err(fault("demand 3: the file is altered", format!("indent {indent}")));
        }
    }
    // the same calls by one run; sometimes in a space that the print may not fit
    let room = match rng.below(4) {
        0 => text.len() + rng.below(3) * rng.below(20),
        _ => text.len().max(print.len()) + rng.below(40),
    };
    port.run(text, &first, &second, indent as u32, &requests, room, rng)?;
    Ok(made(Some(printings)))
}

/// Two texts that are made to agree: their definitions do, and both are printed alike. No printings if one is not accepted.
pub fn pair(port: &mut Port, one: &[u8], other: &[u8], rng: &mut Rng) -> Result<Made, Fault> {
    let (a, b) = (wanted(one, None), wanted(other, None));
    let made = |printings| Made { printings, outside: a.outside || b.outside };
    if a.source == Source::RulesPart || b.source == Source::RulesPart {
        return Err(parted());
    }
    if !compared(&a) || !compared(&b) || a.refusal.is_some() || b.refusal.is_some() {
        return Ok(made(None));
    }
    if shape(one, &a.nodes, &a.comments) != shape(other, &b.nodes, &b.comments) {
        return Err(fault("demand 3: texts made to agree do not", format!("the other is \"{}\"", other.escape_ascii())));
    }
    numbered(port, one, &a, rng)?;
    numbered(port, other, &b, rng)?;
    if listed(&a) != listed(&b) {
        return Err(fault("agreeing texts have other enum numbers", format!("the other is \"{}\"", other.escape_ascii())));
    }
    for indent in 0..INDENTS {
        port.print(one, &a, indent as u32, a.nodes.len(), a.comments.len(), a.prints[indent].len(), rng)?;
        let print = port.out.part().to_vec();
        port.print(other, &b, indent as u32, b.nodes.len(), b.comments.len(), b.prints[indent].len(), rng)?;
        if print != port.out.part() {
            return Err(fault("demand 3: agreeing texts print otherwise", format!("indent {indent}, the other is \"{}\"", other.escape_ascii())));
        }
    }
    Ok(made(Some(INDENTS)))
}
