//! Random sheet texts, well made and damaged.

use super::dice::Dice;
use super::lending::{add_neighbour, any_good_sheet, any_size, relays, transitions};
use super::texts::{
    any_bytes, any_lines, contradicting_or_numbered, damage_bytes, damage_lines, decorated,
    lines_of, padded, recording, row, SHORT,
};
use crate::layout::Kind;
use crate::panel::Rule;
use crate::sheets::sheet_of_set;

/// A random text for the reader of sheets.
pub fn sheet_text(dice: &mut Dice) -> Vec<u8> {
    let mut lines = any_sheet(dice);
    match dice.below(100) {
        0..=49 => {}
        50..=64 => damage_output(dice, &mut lines),
        65..=77 => {
            for _ in 0..1 + dice.below(2) {
                damage_lines(dice, &mut lines);
            }
        }
        78..=84 => return damaged_bytes(dice, &lines),
        85..=90 => lines = any_lines(dice, Kind::Sheet),
        91 => return any_bytes(dice),
        92 => return dice.pick(&SHORT).to_vec(),
        93..=94 => {
            let text = decorated(dice, &lines);
            return padded(dice, text);
        }
        95..=96 => lines = recording(dice, true),
        _ => return contradicting_or_numbered(dice, Kind::Sheet),
    }
    decorated(dice, &lines)
}

/// The lines of a sheet of any size, with names or without.
fn any_sheet(dice: &mut Dice) -> Vec<Vec<u8>> {
    let n = if dice.one_in(2) { relays(dice) } else { any_size(dice) };
    let named = dice.one_in(3);
    sheet_of(dice, n, named)
}

fn damaged_bytes(dice: &mut Dice, lines: &[Vec<u8>]) -> Vec<u8> {
    let mut text = decorated(dice, lines);
    for _ in 0..1 + dice.below(2) {
        damage_bytes(dice, &mut text);
    }
    text
}

/// The lines of a sheet text, good or not, without needless blanks. It breaks the layout only if
/// it lacks the type line or has another.
pub fn sheet_of(dice: &mut Dice, n: u32, named: bool) -> Vec<Vec<u8>> {
    let words = rule_words(dice, n);
    let rows = words.iter().map(|word| rule_row(n, *word)).collect();
    lines_of(dice, Kind::Sheet, n, rows, named)
}

/// The words of a good sheet, mostly shuffled; some left out, some there more than once, or one
/// with a rule beside it that has a contact more or fewer.
fn rule_words(dice: &mut Dice, n: u32) -> Vec<u32> {
    let mut words = if n <= 6 && dice.one_in(2) {
        sheet_of_set(n, &transitions(dice, n)).words()
    } else {
        any_good_sheet(dice, n)
    };
    match dice.below(16) {
        0 => words.clear(),
        1..=2 if !words.is_empty() => {
            for _ in 0..1 + dice.below(3) {
                words.push(*dice.pick(&words));
            }
        }
        3..=4 if !words.is_empty() => {
            let place = dice.place(words.len());
            add_neighbour(dice, n, &mut words, place);
        }
        5..=6 => words.retain(|_| !dice.one_in(3)),
        _ => {}
    }
    if !dice.one_in(4) {
        dice.shuffle(&mut words);
    }
    words
}

/// The row of a rule word valid for n.
fn rule_row(n: u32, word: u32) -> Vec<u8> {
    let rule = Rule::from_word(n, word).expect("a valid rule word");
    let column = |relay: u32| match (rule.body.on >> relay & 1, rule.body.off >> relay & 1) {
        (1, _) => b'1',
        (_, 1) => b'0',
        _ => b'-',
    };
    row(n, &(0..n).map(column).collect::<Vec<u8>>(), 1 << rule.head)
}

/// The output of a row changed: a second `1`, no `1`, a dash, or another head; if there is a row.
fn damage_output(dice: &mut Dice, lines: &mut [Vec<u8>]) {
    let is_row = |line: &Vec<u8>| line.first().is_some_and(|byte| b"01-".contains(byte));
    let places = (0..lines.len()).filter(|place| is_row(&lines[*place])).collect::<Vec<usize>>();
    if places.is_empty() {
        return;
    }
    let line = &mut lines[*dice.pick(&places)];
    let output = line.len() / 2 + 1;
    let any = output + dice.place(line.len() - output);
    let head = line.iter().rposition(|byte| *byte == b'1').expect("the output has a head");
    match dice.below(4) {
        0 => line[any] = b'1',
        1 => line[head] = b'0',
        2 => line[any] = b'-',
        _ => line.swap(head, any),
    }
}
