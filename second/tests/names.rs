//! Names on the contacts: name lines in recordings, the lookup, and name lines in sheets.

use second::calls::Answer;
use second::text::{found, lookup, read, rulesheet, write, NoName, Part, Reading};

/// A text of two relays is accepted; its one row is 01 to 10.
fn accepted(text: &[u8]) {
    let mut list = [9; 2];
    let reading = read(text, &mut list);
    let done = Reading { code: 0, place: 0, n: 2, count: 1 };
    assert_eq!((reading, list), (done, [2 * 1024 + 1, 0]), "{:?}", String::from_utf8_lossy(text));
}

/// The line number of a fault.
fn fault(text: &[u8]) -> u64 {
    let mut list = [9; 2];
    let reading = read(text, &mut list);
    let refused = Reading { code: 11, place: reading.place, n: 0, count: 0 };
    assert_eq!((reading, list), (refused, [0; 2]), "{:?}", String::from_utf8_lossy(text));
    reading.place
}

#[test]
fn name_lines_in_any_order_among_the_headers() {
    let headers = [".i 2", ".o 2", ".ilb a B_9", ".ob a B_9", ".type fr", ".p 1"];
    for first in 0..headers.len() {
        for second in 0..headers.len() {
            let mut order = headers;
            order.swap(0, first);
            order.swap(1, second);
            accepted(format!("{}\n01 10\n.e\n", order.join("\n")).as_bytes());
        }
    }
    accepted(b"\t.ilb \t a\tb # names\n.ob a b#\xff\n\n.i 2\n#\n.o 2\n.type fr\n01 10\n.e");
    accepted(b".i 2\n.o 2\n.type fr\n.ilb A a\n.ob A a\n01 10\n.e");
}

#[test]
fn names_of_every_character() {
    let names = ["abcdefghijklmnop", "qrstuvwxyz012345", "6789_ABCDEFGHIJK", "LMNOPQRSTUVWXYZ_"];
    for name in names.into_iter().chain(["0", "9", "a", "z", "A", "Z", "_", "01", "e", "ilb"]) {
        let line = format!("{name} x");
        accepted(format!(".i 2\n.o 2\n.ilb {line}\n.ob {line}\n.type fr\n01 10\n.e").as_bytes());
    }
    // Every other byte that is neither a blank, nor ends the line, nor begins a comment.
    for byte in (0..=255u8).filter(|byte| !b" \t\n#".contains(byte)) {
        let line = [b"x ", &[byte][..]].concat();
        let rest = b"\n.type fr\n01 10\n.e";
        let text = [b".i 2\n.o 2\n.ilb ", &line[..], b"\n.ob ", &line, rest].concat();
        if byte.is_ascii_alphabetic() && byte != b'x' || byte.is_ascii_digit() || byte == b'_' {
            accepted(&text);
        } else {
            assert_eq!(fault(&text), 3);
        }
    }
}

#[test]
fn a_name_line_that_is_faulty_itself() {
    let faults: [&[u8]; 13] = [
        b"",
        b"# a b",
        b"abcdefghijklmnopq b",
        b"a abcdefghijklmnopqrstuvwxyz",
        b"a a",
        b"a-b b",
        b"a.b b",
        b"a \xe4",
        b"a \xc3\xa4",
        b"a b\r",
        b"a, b",
        b"a \0",
        b"0 1 2 3 4 5 6 7 8 9 a",
    ];
    for names in faults {
        for [first, second] in [[&b".ilb "[..], b".ob "], [b".ob ", b".ilb "]] {
            let (line, other) = ([first, names].concat(), [second, names].concat());
            // First of all, after the sizes, and as the second of two.
            assert_eq!(fault(&[&line[..], b"\n.i 2\n.o 2\n.type fr\n01 10\n.e"].concat()), 1);
            let headers = b".i 2\n.o 2\n.type fr\n";
            let both = [headers, &line[..], b"\n", &other, b"\n01 10\n.e"].concat();
            assert_eq!(fault(&both), 4);
            let later = [headers, second, b"a b\n", &line, b"\n01 10\n.e"].concat();
            assert_eq!(fault(&later), 5);
        }
    }
}

#[test]
fn the_keyword_as_it_is_written() {
    for line in [".ilba b", ".ILB a b", ".Ob a b", "ilb a b", ".il a b", ".o b a b", ".ilb.a b"] {
        assert_eq!(fault(format!(".i 2\n{line}\n.o 2\n.type fr\n.e").as_bytes()), 2);
    }
}

#[test]
fn of_two_that_disagree_the_later_is_faulty() {
    let faults = [
        // How many names, against a size before and after.
        (".i 2\n.ilb a\n.o 2\n.ob a\n.type fr\n.e", 2),
        (".i 2\n.ob a b c\n.o 2\n.ilb a b c\n.type fr\n.e", 2),
        (".o 3\n.ilb a b\n.i 3\n.ob a b\n.type fr\n.e", 2),
        (".ilb a b\n.i 3\n.o 3\n.ob a b\n.type fr\n.e", 2),
        (".ob a b\n.o 1\n.i 1\n.ilb a b\n.type fr\n.e", 2),
        (".ilb a b\n.ob a b\n.i 3\n.o 3\n.type fr\n.e", 3),
        (".i 2\n.ilb a b\n.ob a b\n.o 3\n.type fr\n.e", 4),
        // Against the other name line.
        (".ilb a b\n.ob a\n.i 2\n.o 2\n.type fr\n.e", 2),
        (".ob a b\n.ilb a b c\n.i 2\n.o 2\n.type fr\n.e", 2),
        (".i 2\n.o 2\n.ilb a b\n.ob a\n.type fr\n.e", 4),
        // Names that differ.
        (".ilb a b\n.ob a c\n.i 2\n.o 2\n.type fr\n.e", 2),
        (".i 2\n.o 2\n.ilb a b\n.ob b a\n.type fr\n.e", 4),
        (".i 2\n.o 2\n.ob a b\n.ilb a B\n.type fr\n.e", 4),
        (".i 2\n.o 2\n.ilb a b\n.ob a bb\n.type fr\n.e", 4),
        (".i 2\n.o 2\n.ilb abcdefghijklmnop b\n.ob abcdefghijklmnoq b\n.type fr\n.e", 4),
    ];
    for (text, line) in faults {
        assert_eq!(fault(text.as_bytes()), line, "{text:?}");
    }
}

#[test]
fn both_once_each_before_the_first_row() {
    let faults = [
        // One alone: the first row, or else the end mark.
        (".i 2\n.o 2\n.type fr\n.ilb a b\n01 10\n.e", 5),
        (".i 2\n.o 2\n.type fr\n.ob a b\n\n01 10\n.ilb a b\n.e", 6),
        (".ilb a b\n.i 2\n.o 2\n.type fr\n.e", 5),
        (".ob a b\n.i 2\n.o 2\n.type fr\n.p 0\n.end", 6),
        // One alone and no end mark: the number after the last line.
        (".i 2\n.o 2\n.type fr\n.ilb a b\n", 5),
        (".ilb a b", 2),
        // Twice.
        (".ilb a b\n.ilb a b\n.ob a b\n.i 2\n.o 2\n.type fr\n.e", 2),
        (".i 2\n.o 2\n.type fr\n.ilb a b\n.ob a b\n.ob a b\n.e", 6),
        // After a row, after the end.
        (".i 2\n.o 2\n.type fr\n.ilb a b\n.ob a b\n01 10\n.ilb a b\n.e", 7),
        (".i 2\n.o 2\n.type fr\n01 10\n.ilb a b\n.ob a b\n.e", 5),
        (".i 2\n.o 2\n.type fr\n.e\n.ilb a b\n.ob a b\n", 5),
        // The number after `.p` waits for them.
        (".p 3\n.i 2\n.o 2\n.type fr\n.ilb a b\n01 10\n.e", 6),
        (".p 3\n.i 2\n.o 2\n.type fr\n.ilb a b\n.ob a b\n01 10\n.e", 1),
    ];
    for (text, line) in faults {
        assert_eq!(fault(text.as_bytes()), line, "{text:?}");
    }
}

#[test]
fn ten_names_and_eleven() {
    let names = "0 1 2 3 4 5 6 7 8 9";
    let text = |names: &str| format!(".ilb {names}\n.ob {names}\n.i 10\n.o 10\n.type fr\n.e");
    assert_eq!(read(text(names).as_bytes(), &mut []).n, 10);
    assert_eq!(fault(text(&format!("{names} a")).as_bytes()), 1);
    let one = b".ob a\n.ilb a\n.o 1\n.i 1\n.type fr\n.e";
    assert_eq!(read(one, &mut []).n, 1);
}

const THREE: &[u8] = b".i 3\n.o 3\n.ob PUMP v_2 F\n.ilb\tPUMP  v_2 F#x\n.type fr\n.e\n";
const FIVE: &[u8] = b".ilb a b c d e\n.ob a b c d e\n.i 5\n.o 5\n.type fr\n.e";
const PLAIN: &[u8] = b".i 4\n.o 4\n.type fr\n1111 0000\n.e\n";

/// Texts that both readers refuse with 11.
const BAD: [&[u8]; 10] = [
    b"",
    b"\n",
    b".i 3\n.o 3\n.type fr\n.ilb a b c\n.ob a b c\n",
    b".i 3\n.o 3\n.type fr\n.ilb a b c\n.e\n",
    b".i 3\n.o 3\n.type fr\n.ilb a b c\n.ob a b d\n.e\n",
    b".p 1\n.i 3\n.o 3\n.type fr\n.ilb a b c\n.ob a b c\n.e\n",
    b".p 0\n.i 1\n.o 1\n.type fr\n1 1\n.e\n",
    b".i 3\n.o 3\n.ilb a b c\n.ob a b c\n.e\n",
    b".i 3\n.o 3\n.e\n",
    b".i 3\n.o 3\n.type fd\n.ilb a b c\n.ob a b c\n.e\n",
];

/// Columns that no panel has; the third and fourth would be some by their last 32 bits.
const ABSURD: [u64; 6] = [10, 11, 1 << 32, (1 << 32) + 1, 1 << 63, u64::MAX];

/// Whose name is found, and its bytes.
fn name<'a>(column: u64, panel: &'a [u8], maker: &'a [u8]) -> (bool, &'a [u8]) {
    let part = lookup(column, panel, maker);
    assert_ne!(part.length, 0);
    (part.of_maker, part.bytes(panel, maker))
}

/// Why no name is found; the empty part is handed back.
fn no_name(column: u64, panel: &[u8], maker: &[u8]) -> NoName {
    let empty = Part { of_maker: false, start: 0, length: 0 };
    assert_eq!(lookup(column, panel, maker), empty);
    found(column, panel, maker).unwrap_err()
}

#[test]
fn a_name_from_the_panels_own_text() {
    // The part of the `.ilb` line, wherever it stands.
    assert_eq!(lookup(0, THREE, b""), Part { of_maker: false, start: 30, length: 4 });
    assert_eq!(lookup(1, THREE, b""), Part { of_maker: false, start: 36, length: 3 });
    assert_eq!(lookup(2, THREE, b""), Part { of_maker: false, start: 40, length: 1 });
    assert_eq!(lookup(0, FIVE, b""), Part { of_maker: false, start: 5, length: 1 });
    // The maker's text is not consulted, whatever it holds.
    for maker in [&[THREE, FIVE, PLAIN][..], &BAD].concat() {
        let names: [&[u8]; 3] = [b"PUMP", b"v_2", b"F"];
        for (column, expected) in names.into_iter().enumerate() {
            assert_eq!(name(column as u64, THREE, maker), (false, expected));
        }
        for column in [&[3, 4][..], &ABSURD].concat() {
            assert_eq!(no_name(column, THREE, maker), NoName::AbovePanel);
        }
    }
}

#[test]
fn a_name_from_the_makers_text() {
    assert_eq!(lookup(4, PLAIN, FIVE), Part { of_maker: true, start: 13, length: 1 });
    assert_eq!(name(2, PLAIN, FIVE), (true, &b"c"[..]));
    assert_eq!(name(0, PLAIN, THREE), (true, &b"PUMP"[..]));
    for column in [&[5, 6][..], &ABSURD].concat() {
        assert_eq!(no_name(column, PLAIN, FIVE), NoName::AboveMaker);
    }
    // The n of the text used counts: the maker's, though the panel has a column 3.
    assert_eq!(no_name(3, PLAIN, THREE), NoName::AboveMaker);
}

#[test]
fn no_name_at_all() {
    for column in [&[0, 3, 4][..], &ABSURD].concat() {
        assert_eq!(no_name(column, PLAIN, PLAIN), NoName::Neither);
        for bad in BAD {
            assert_eq!(no_name(column, PLAIN, bad), NoName::BadMaker);
            for maker in [&[THREE, FIVE, PLAIN][..], &BAD].concat() {
                assert_eq!(no_name(column, bad, maker), NoName::BadPanel);
            }
        }
    }
}

/// The text of the empty sheet, in exactly its room; a byte less is refused with 12.
fn written(n: u32, panel: &[u8], maker: &[u8]) -> String {
    let mut out = [b'?'; 200];
    let (answer, length) = write(n, 0, &[], panel, maker, &mut out);
    assert_eq!(answer, Answer::default());
    let (text, rest) = out.split_at(length as usize);
    assert!(rest.iter().all(|byte| *byte == b'?'));
    let mut exact = vec![b'?'; text.len()];
    assert_eq!(write(n, 0, &[], panel, maker, &mut exact), (answer, length));
    assert_eq!(exact, text);
    let mut short = vec![b'?'; text.len() - 1];
    let refused = Answer { code: 12, ..Answer::default() };
    assert_eq!(write(n, 0, &[], panel, maker, &mut short), (refused, 0));
    assert!(short.iter().all(|byte| *byte == b'?'));
    String::from_utf8_lossy(text).into_owned()
}

fn sheet(n: u32, names: &str) -> String {
    let lines = match names {
        "" => String::new(),
        names => format!(".ilb {names}\n.ob {names}\n"),
    };
    format!(".i {n}\n.o {n}\n{lines}.type f\n.p 0\n.e\n")
}

#[test]
fn a_sheet_is_written_with_names() {
    for maker in [&[THREE, FIVE, PLAIN][..], &BAD].concat() {
        assert_eq!(written(3, THREE, maker), sheet(3, "PUMP v_2 F"));
        // Fewer columns than names: each of them has one.
        assert_eq!(written(1, THREE, maker), sheet(1, "PUMP"));
        assert_eq!(written(2, THREE, maker), sheet(2, "PUMP v_2"));
        // More columns than names: not every one has a name, so neither line is written.
        assert_eq!(written(4, THREE, maker), sheet(4, ""));
        assert_eq!(written(10, THREE, maker), sheet(10, ""));
    }
    assert_eq!(written(5, PLAIN, FIVE), sheet(5, "a b c d e"));
    assert_eq!(written(4, PLAIN, FIVE), sheet(4, "a b c d"));
    assert_eq!(written(6, PLAIN, FIVE), sheet(6, ""));
}

#[test]
fn a_sheet_is_written_without_names() {
    for n in 1..=10 {
        assert_eq!(written(n, PLAIN, PLAIN), sheet(n, ""));
        for bad in BAD {
            assert_eq!(written(n, PLAIN, bad), sheet(n, ""));
            assert_eq!(written(n, bad, FIVE), sheet(n, ""));
        }
    }
}

#[test]
fn names_do_not_change_what_write_refuses_first() {
    let check = |code, n, count, sheet: &[u32]| {
        let refused = Answer { code, ..Answer::default() };
        assert_eq!(write(n, count, sheet, THREE, b"", &mut []), (refused, 0));
    };
    check(2, 0, 9, &[9]);
    check(3, 3, 2, &[9]);
    check(5, 3, 1, &[9 << 20]);
    check(12, 3, 1, &[0]);
}

#[test]
fn the_program_keeps_the_names() {
    let check = |text: &str, printed: &str| {
        assert_eq!(String::from_utf8_lossy(&rulesheet(text.as_bytes())), printed, "{text:?}");
    };
    let names = ".ilb a B\n.ob a B\n";
    let rules = ".type f\n.p 2\n-- 10\n-- 01\n.e\n";
    check(&format!("{names}.o 2\n.i 2\n.type fr\n.e"), &format!(".i 2\n.o 2\n{names}{rules}"));
    check(".o 2\n.i 2\n.type fr\n.e", &format!(".i 2\n.o 2\n{rules}"));
    check(".i 2\n.o 2\n.type fr\n.ilb a B\n11 11\n.e", "refused 11 at 5\n");
    check(".i 2\n.o 2\n.type fr\n.ob a B\n.e", "refused 11 at 5\n");
    check(".i 2\n.o 2\n.type fr\n.ilb a B\n.ob a C\n.e", "refused 11 at 5\n");
}
