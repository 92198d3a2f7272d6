//! Random part lists, good and damaged, for the import and for the program `parts`.

use super::runs::{Comparison, Difference};
use crate::call::{Call, Case};
use crate::model::lists::cells_of;
use crate::model::table::*;
use crate::random::Random;

/// The text of a list.
pub fn text_of(count: usize, lines: &[Vec<usize>]) -> Vec<u8> {
    let mut text = format!("{count}\n");
    for line in lines {
        let numbers: Vec<String> = line.iter().map(usize::to_string).collect();
        text += &(numbers.join(" ") + "\n");
    }
    text.into_bytes()
}

/// A random list for a table of about that N: mostly good, its lines of any sizes, overlapping or repeated.
pub fn random_list(random: &mut Random, room: usize) -> Vec<u8> {
    let (mut count, mut lines) = random_lines(random, room);
    if random.once_in(4) {
        wrong_numbers(random, &mut count, &mut lines);
    }
    let mut text = text_of(count, &lines);
    if random.once_in(4) {
        malformed(random, &mut text);
    }
    text
}

/// A list without a fault; now and then it has more cells than N.
pub fn random_lines(random: &mut Random, room: usize) -> (usize, Vec<Vec<usize>>) {
    let (most_points, most_lines) = (random.pick(&[3, 8, 12, 40, 120]), random.pick(&[3, 5, 9]));
    let points = random.between(0, room.min(most_points));
    let fitting = (1..=DIMENSIONS).take_while(|corners| 1 << corners <= 2 * room).count();
    let most_corners = if random.once_in(10) { DIMENSIONS } else { fitting };
    let largest = random.between(1, most_corners);
    let mut lines: Vec<Vec<usize>> = vec![];
    for _ in 0..random.below(most_lines).min(3 * points) {
        let mut indices: Vec<usize> = (0..points).collect();
        // Neighbouring indices are met more often, so that lines have sides in common.
        if points > largest && random.once_in(2) {
            let first = random.below(points - largest + 1);
            indices = (first..first + largest).collect();
        }
        random.shuffle(&mut indices);
        indices.truncate(random.between(1, largest));
        lines.push(indices);
        if random.once_in(4) {
            lines.push(random.pick(&lines));
        }
    }
    while cells_of(room, &text_of(points, &lines)).is_err() && !random.once_in(30) {
        lines.pop();
    }
    fill_up(random, room, points, lines)
}

/// Now and then so many unused points that the table is just full, or one too many.
fn fill_up(random: &mut Random, room: usize, points: usize, lines: Vec<Vec<usize>>) -> (usize, Vec<Vec<usize>>) {
    match cells_of(room, &text_of(points, &lines)) {
        Ok(cells) if random.once_in(4) => (points + room - cells.len() + random.below(2), lines),
        _ => (points, lines),
    }
}

/// Indices that are repeated or not below the count, or a large count.
fn wrong_numbers(random: &mut Random, count: &mut usize, lines: &mut [Vec<usize>]) {
    if lines.is_empty() || random.once_in(6) {
        *count = random.pick(&[512, 513, 600, 65535, 65536, 70000, 99999]);
        return;
    }
    let line = random.below(lines.len());
    let line = &mut lines[line];
    let place = random.below(line.len());
    match random.below(4) {
        0 => line[place] = random.pick(line),
        1 => line[place] = *count,
        2 => line[place] = random.pick(&[*count + 65536, 65535, 65536, 70000, 99999]).min(99999),
        _ if line.len() < DIMENSIONS => line.push(line[place]),
        _ => line[place] = line[line.len() - 1],
    }
}

/// One change of the text after which it is mostly malformed.
fn malformed(random: &mut Random, text: &mut Vec<u8>) {
    let at = random.below(text.len());
    let other = random.pick(b"  \n\n0019:/-+xX\r\t\0\x0B\xFF");
    match random.below(12) {
        0 => text[at] = other,
        1 => text.insert(at, other),
        2 => drop(text.remove(at)),
        3 => text.truncate(at),
        4 => drop(text.pop()),
        5 => text.push(other),
        6 => text.insert(at, text[at]),
        7 => text[at] ^= 1 << random.below(8),
        8 => {
            let more = random.pick(&[
                "0 1 2 3 4 5 6 7\n",
                "1 1 1 1 1 1 1 1\n",
                " \n",
                "\n",
                "00\n",
                "01\n",
                "100000\n",
                "0",
                "0 ",
            ]);
            text.extend(more.bytes());
        }
        9 => *text = text.split(|byte| *byte == b'\n').collect::<Vec<_>>().join(&b"\r\n"[..]),
        10 => {
            let start = random.pick(&["", "\n", " ", "0", "1", "+", "1 ", "\u{FEFF}"]);
            text.splice(0..0, start.bytes());
        }
        _ => *text = (0..random.below(40)).map(|_| random.pick(b"0123456789  \n\n")).collect(),
    }
}

/// The same list written in another way: the lines in another order, some twice, and the indices of each in another order.
pub fn rewritten(random: &mut Random, text: &[u8]) -> Vec<u8> {
    let mut lines: Vec<Vec<&[u8]>> = vec![];
    let body = &text[..text.len() - 1];
    for line in body.split(|byte| *byte == b'\n').skip(1) {
        let mut numbers: Vec<&[u8]> = line.split(|byte| *byte == b' ').collect();
        random.shuffle(&mut numbers);
        lines.extend(vec![numbers; random.between(1, 2)]);
    }
    random.shuffle(&mut lines);
    let first = body.split(|byte| *byte == b'\n').next().expect("a count");
    let joined = lines.iter().map(|numbers| numbers.join(&b' '));
    [first.to_vec()].into_iter().chain(joined).map(|line| [&line[..], b"\n"].concat()).collect::<Vec<_>>().concat()
}

/// A million lines that repeat: accepted in a table that they just fill, refused with 9 in one record less.
pub fn million(comparison: &mut Comparison) -> Result<(), Difference> {
    let four = b"0 1 2 3 4 5 6\n6 5 4 3 2 1 0\n3 1\n7\n";
    let text = [&b"9\n"[..], &four.repeat(250_000)].concat();
    for room in [129, 128] {
        let case = Case { table: vec![7; room * RECORD], call: Call::Import { text: text.clone() } };
        let outcome = comparison.call(&case)?;
        if outcome.number() != if room == 129 { 0 } else { 9 } {
            return Err(format!("a million lines in a table of {room} records: answer {}", outcome.word));
        }
    }
    Ok(())
}
