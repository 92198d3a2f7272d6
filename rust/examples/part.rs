//! A part built by cones, one call at a time, and its hole numbers after each: a segment, its ends merged, and two caps on the loop. Then
//! two calls that are refused, a table that was broken by hand, and one from a part list.

use bumbleturf::{evidence_words, Breach, Refusal, Table, RECORD_WORDS};

/// Reduces, checks the evidence, and prints what it shows.
fn show(what: &str, part: &Table) -> Result<(), Refusal> {
    let mut evidence = vec![0; evidence_words(part.room())];
    part.reduce(&mut evidence)?;
    let holes = part.check(&evidence)?.holes;
    println!("{what}: pieces {}, tunnels {}, voids {}", holes[0], holes[1], holes[2]);
    Ok(())
}

fn main() -> Result<(), Refusal> {
    let mut part = Table::new(8)?;
    let a = part.cone_over(&[])?; // point 0
    let b = part.cone_over(&[a])?; // point 1, edge 2 from 0 to 1
    show("segment", &part)?;
    let a = part.merge(a, b)?; // edge 2 is a loop at point 0
    show("ends merged", &part)?;
    let edge = 2;
    part.cone_over(&[a, edge])?; // a triangle closes the tunnel
    show("one cap", &part)?;
    part.cone_over(&[a, edge])?; // a second one shuts in a void
    show("two caps", &part)?;
    // All 8 records are in use.
    if let Err(refusal) = part.cone_over(&[a, edge]) {
        println!("a third cap: refused {}", refusal.number());
    }
    if let Err(refusal) = part.merge(a, edge) {
        println!("point with edge: refused {}", refusal.number());
    }
    let mut list = vec![0; part.room()];
    part.compact(&mut list)?; // points first, then edges, then triangles
    println!("compacted: edge {edge} is now {}", list[usize::from(edge)]);
    part.weld(list[4], list[7])?; // one cap on the other, with edge and tip
    show("caps welded", &part)?;
    let edge = list[usize::from(edge)];
    part.words_mut()[RECORD_WORDS * usize::from(edge) + 1] = 700; // face 0 of the edge
    match part.audit() {
        Err(Refusal::Invalid(Breach::Face { cell, place })) => {
            println!("broken by hand: refused 2, the table is not valid: face {place} of cell {cell}")
        }
        other => println!("broken by hand: {other:?}"),
    }
    part.import("3\n0 1\n1 2\n2 0\n")?; // three points and three edges
    show("frame from a part list", &part)?;
    Ok(())
}
