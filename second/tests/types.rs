//! The type line: where it is missing the first row is faulty, or else the end mark.

use second::text::{found, lookup, read, rulesheet, write, NoName, Part, Reading};

/// A text of two relays is accepted; its one row is 01 to 10.
fn accepted(text: &str) {
    let mut list = [9; 2];
    let reading = read(text.as_bytes(), &mut list);
    let done = Reading { code: 0, place: 0, n: 2, count: 1 };
    assert_eq!((reading, list), (done, [2 * 1024 + 1, 0]), "{text:?}");
}

/// Each text is refused with 11 at the line, in a list with no room as well.
fn faulty(texts: &[(&str, u64)]) {
    for (text, line) in texts {
        let refused = Reading { code: 11, place: *line, n: 0, count: 0 };
        let mut list = [9; 2];
        assert_eq!((read(text.as_bytes(), &mut list), list), (refused, [0; 2]), "{text:?}");
        assert_eq!(read(text.as_bytes(), &mut []), refused, "{text:?}");
        let printed = rulesheet(text.as_bytes());
        assert_eq!(String::from_utf8_lossy(&printed), format!("refused 11 at {line}\n"));
    }
}

#[test]
fn at_any_place_among_the_headers() {
    let headers = [".i 2", ".ilb a b", ".p 1", ".ob a b", ".o 2"];
    for place in 0..=headers.len() {
        let (before, after) = headers.split_at(place);
        let lines = [before, &[".type fr"], after, &["01 10", ".e"]].concat();
        accepted(&lines.join("\n"));
        // The same lines, and none of them the type line.
        let without = [before, after, &["01 10", ".e"]].concat();
        faulty(&[(&without.join("\n"), 6)]);
    }
    accepted("# .type fd\n\t.type \t fr #\n\n.i 2\n.o 2\n01 10\n.e");
}

#[test]
fn without_it_the_first_row_is_faulty() {
    faulty(&[
        (".i 2\n.o 2\n01 10\n.e\n", 3),
        (".o 2\n.i 2\n01 10\n.end", 3),
        (".i 2\n.p 2\n.o 2\n-- 10\n01 10\n.e", 4),
        ("\n.i 2\n# .type fr\n.o 2\n \t\n01 10\n.e\n", 6),
        // What follows the row does not count: not the end mark, not a fault, not the room.
        (".i 2\n.o 2\n01 10\n", 3),
        (".i 2\n.o 2\n01 10", 3),
        (".i 2\n.o 2\n01 10\nx\n.e", 3),
        (".i 2\n.o 2\n01 10\n.e\n.e", 3),
        (".i 2\n.o 2\n-- 10\n-- 10\n-- 10\n.e", 3),
        (".i 2\n.o 2\n01 10\n01 11\n.e", 3),
        // Nor does a row that would be faulty in any case.
        (".i 2\n.o 2\n011 10\n.e", 3),
    ]);
}

#[test]
fn without_it_and_without_rows_the_end_mark_is_faulty() {
    faulty(&[
        (".i 2\n.o 2\n.e\n", 3),
        (".o 2\n.i 2\n.end", 3),
        (".i 1\n.p 0\n.o 1\n\n#\n.e#\n\n", 6),
        (".i 2\n.o 2\n.e\nx", 3),
        (".i 2\n.o 2\n.e\n01 10", 3),
        (".e", 1),
    ]);
}

#[test]
fn without_rows_and_end_mark_every_line_passes() {
    faulty(&[
        (".i 2\n.o 2", 3),
        (".i 2\n.o 2\n", 3),
        (".i 2\n.o 2\n\n#", 5),
        (".o 2\n.p 7\n", 3),
        (".i 2\n.o 2\n.ilb a b\n.ob a b\n", 5),
        // With the type line the place is the same.
        (".i 2\n.type fr\n", 3),
        (".type fr", 2),
    ]);
}

#[test]
fn after_the_first_row_or_the_end_mark_it_is_too_late() {
    faulty(&[
        (".i 2\n.o 2\n01 10\n.type fr\n.e\n", 3),
        (".i 2\n.o 2\n01 10\n.type fr\n10 10\n.e\n", 3),
        (".i 2\n.o 2\n.e\n.type fr\n", 3),
        // One that is too many is faulty itself.
        (".i 2\n.o 2\n.type fr\n01 10\n.type fr\n.e\n", 5),
        (".i 2\n.o 2\n.type fr\n.e\n.type fr\n", 5),
        (".type fr\n.i 2\n.type fr\n.o 2\n01 10\n.e\n", 3),
    ]);
}

#[test]
fn another_type_is_faulty_itself() {
    let others =
        ["f", "fd", "fdr", "r", "d", "", "fr fr", "f r", "FR", "Fr", "fr.", "fr\r", "fr 2"];
    for other in others {
        faulty(&[
            (&format!(".i 2\n.type {other}\n.o 2\n01 10\n.e"), 2),
            (&format!(".type {other}\n.type fr\n.i 2\n.o 2\n01 10\n.e"), 1),
            (&format!(".i 2\n.type fr\n.o 2\n.type {other}\n01 10\n.e"), 4),
            // Where the first row comes before it, the row is.
            (&format!(".i 2\n.o 2\n01 10\n.type {other}\n.e"), 3),
        ]);
    }
    faulty(&[(".typefr\n.i 2\n.o 2\n.e", 1), (".TYPE fr\n", 1), ("type fr\n", 1), (".typ fr", 1)]);
}

#[test]
fn an_earlier_fault_decides() {
    faulty(&[
        (".i 2\n.o 3\n01 10\n.e", 2),
        (".i 2\nx\n.o 2\n01 10\n.e", 2),
        (".i 2\n.o 2\n.p 01\n01 10\n.e", 3),
        (".i 2\n.ilb a\n.o 2\n.ob a\n.e", 2),
        (".i 2\n01 10\n.o 2\n.type fr\n.e", 2),
    ]);
}

#[test]
fn the_row_number_waits_for_it() {
    faulty(&[
        (".p 7\n.i 2\n.o 2\n01 10\n.e", 4),
        (".p 7\n.i 2\n.o 2\n.e", 4),
        (".p 7\n.i 2\n.o 2\n", 4),
        (".p 99999999999999999999999\n.i 2\n.o 2\n01 10\n.e", 4),
        // With it the number is compared.
        (".p 7\n.i 2\n.o 2\n.type fr\n01 10\n.e", 1),
        (".p 7\n.i 2\n.o 2\n.type fr\n.e", 1),
    ]);
}

#[test]
fn names_make_no_difference() {
    faulty(&[
        (".i 2\n.o 2\n.ilb a b\n.ob a b\n01 10\n.e", 5),
        (".ob a b\n.ilb a b\n.i 2\n.o 2\n.e", 5),
        // Of two headers that are missing, both make the same line faulty.
        (".i 2\n.o 2\n.ilb a b\n01 10\n.e", 4),
        (".i 2\n.o 2\n.ob a b\n.e", 4),
        (".o 2\n01 10\n.e", 2),
    ]);
}

const NAMED: &[u8] = b".i 2\n.o 2\n.ilb a B\n.ob a B\n.type fr\n01 10\n.e\n";
const PLAIN: &[u8] = b".type fr\n.i 2\n.o 2\n.e\n";

/// Bad for want of the type line alone: with names and a row, with names, with neither; and with
/// both type lines.
const UNTYPED: [&[u8]; 4] = [
    b".i 2\n.o 2\n.ilb a B\n.ob a B\n01 10\n.e\n",
    b".i 2\n.o 2\n.ilb a B\n.ob a B\n.e\n",
    b".i 2\n.o 2\n.e\n",
    b".i 2\n.o 2\n.ilb a B\n.ob a B\n.type f\n.type fr\n.e\n",
];

#[test]
fn a_lookup_finds_nothing_in_a_text_without_it() {
    let empty = Part { of_maker: false, start: 0, length: 0 };
    for untyped in UNTYPED {
        for column in [0, 1, 2, u64::MAX] {
            for maker in [NAMED, PLAIN, untyped, b""] {
                assert_eq!(lookup(column, untyped, maker), empty);
                assert_eq!(found(column, untyped, maker), Err(NoName::BadPanel));
            }
            assert_eq!(lookup(column, PLAIN, untyped), empty);
            assert_eq!(found(column, PLAIN, untyped), Err(NoName::BadMaker));
        }
        // A maker's text that is not consulted does no harm.
        assert_eq!(lookup(1, NAMED, untyped), Part { of_maker: false, start: 17, length: 1 });
    }
    assert_eq!(lookup(1, PLAIN, NAMED), Part { of_maker: true, start: 17, length: 1 });
}

/// The text of the empty sheet of two relays.
fn written(panel: &[u8], maker: &[u8]) -> String {
    let mut out = [0; 99];
    let (answer, length) = write(2, 0, &[], panel, maker, &mut out);
    assert_eq!(answer.code, 0);
    String::from_utf8_lossy(&out[..length as usize]).into_owned()
}

#[test]
fn a_sheet_is_written_without_names_beside_a_text_without_it() {
    let (with, without) =
        (".i 2\n.o 2\n.ilb a B\n.ob a B\n.type f\n.p 0\n.e\n", ".i 2\n.o 2\n.type f\n.p 0\n.e\n");
    for untyped in UNTYPED {
        assert_eq!(written(PLAIN, untyped), without);
        assert_eq!(written(untyped, NAMED), without);
        assert_eq!(written(NAMED, untyped), with);
    }
    assert_eq!(written(PLAIN, NAMED), with);
}

#[test]
fn the_program_judges_the_length_before_it() {
    let text = ".i 2\n.o 2\n01 10\n.e\n";
    let filled = format!("{text}{}", "#".repeat(24_576 - text.len()));
    assert_eq!(rulesheet(filled.as_bytes()), b"refused 11 at 3\n");
    assert_eq!(rulesheet(format!("{filled}#").as_bytes()), b"refused 13 at 0\n");
}
