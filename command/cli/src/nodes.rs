//! Document 01's listing of a file's records, a node's with the tenth number of Change 7.

use hirvelan::{Reading, Refusal};
use std::fmt::Write;

pub fn listing(reading: &Reading) -> Vec<u8> {
    let mut out = format!("{} {}\n", reading.nodes.len(), reading.comments.len());
    for row in &reading.nodes {
        let _ = writeln!(out, "{}", row.map(|n| n.to_string()).join(" "));
    }
    for row in &reading.comments {
        let _ = writeln!(out, "{}", row.map(|n| n.to_string()).join(" "));
    }
    out.into_bytes()
}

pub fn refused(refusal: &Refusal) -> Vec<u8> {
    format!("R {} {} {}\n", refusal.number, refusal.place, refusal.length).into_bytes()
}
