//! Recording texts: which are accepted, and the line that is faulty in the others.

use second::text::{read, rulesheet, Reading};

/// The words of an accepted text.
fn words(text: &str) -> Vec<u32> {
    let mut list = [9; 2048];
    let reading = read(text.as_bytes(), &mut list);
    assert_eq!((reading.code, reading.place), (0, 0), "{text:?}");
    let (used, rest) = list.split_at(reading.count as usize);
    assert!(rest.iter().all(|word| *word == 0));
    used.to_vec()
}

/// The line number of a fault.
fn fault(text: &[u8]) -> u64 {
    let mut list = [9; 4];
    let reading = read(text, &mut list);
    assert_eq!((reading.code, list), (11, [0; 4]), "{:?}", String::from_utf8_lossy(text));
    assert_eq!(reading, Reading { code: 11, place: reading.place, n: 0, count: 0 });
    reading.place
}

#[test]
fn accepted_texts() {
    let one_row = vec![1024 + 2];
    let texts = [
        ".i 2\n.o 2\n.type fr\n10 01\n.e\n",
        ".o 2\n.type fr\n.i 2\n10 01\n.end",
        ".type fr\n.o 2\n.p 1\n.i 2\n10 01\n.e",
        "\n# x\n.i 2 # y\n\t.o\t2\n .type \tfr#\n \t10 \t01\t \n\n.e#z\n\n \t\n#",
        ".i 2#\r\0\n.o 2\n.type fr\n10 01#\u{ff}\n.e\n#\r\n",
    ];
    for text in texts {
        assert_eq!(words(text), one_row, "{text:?}");
    }
    assert_eq!(words(".i 1\n.o 1\n.type fr\n.e"), []);
    assert_eq!(words(".i 1\n.p 0\n.o 1\n.type fr\n.e"), []);
    assert_eq!(words(".i 1\n.o 1\n.type fr\n1 1\n1 0\n1 1\n.e"), [1025, 1024, 1025]);
}

#[test]
fn dashes_run_through_states_by_number() {
    assert_eq!(words(".i 2\n.o 2\n.type fr\n-- 11\n.e"), [3, 1027, 2051, 3075]);
    assert_eq!(words(".i 3\n.o 3\n.type fr\n-1- 100\n.e"), [2049, 3073, 6145, 7169]);
    let all = words(".i 10\n.o 10\n.type fr\n---------- 0000000001\n.e");
    assert_eq!(all, (0..1024).map(|state| state * 1024 + 512).collect::<Vec<u32>>());
}

#[test]
fn the_row_number_counts_rows_as_written() {
    assert_eq!(words(".i 2\n.o 2\n.type fr\n.p 1\n-- 11\n.e").len(), 4);
    assert_eq!(words(".i 2\n.o 2\n.type fr\n.p 2\n01 11\n01 11\n.e").len(), 2);
    assert_eq!(fault(b".i 2\n.o 2\n.type fr\n.p 4\n-- 11\n.e"), 4);
}

#[test]
fn the_row_number_is_compared_last() {
    assert_eq!(fault(b".p 0\n.i 2\n.o 2\n.type fr\n01 11\n.e"), 1);
    assert_eq!(fault(b".p 0\n.i 2\n.o 2\n.type fr\n01 11\n"), 6);
    assert_eq!(fault(b".p 0\n.i 2\n.o 2\n.type fr\n01 11\n.e\nx"), 7);
    // Huge numbers, also those that agree modulo 2^32 or 2^64.
    for number in ["4294967297", "18446744073709551617", &"1".repeat(5_000)] {
        let text = format!(".i 2\n.o 2\n.type fr\n.p {number}\n01 11\n");
        assert_eq!(fault(format!("{text}.e").as_bytes()), 4);
        assert_eq!(fault(text.as_bytes()), 6);
    }
    // A malformed number is faulty at once.
    for number in ["", "01", "00", "+1", "-1", "x", "1x", "1 1", "1."] {
        let text = format!(".i 2\n.p {number}\n.o 2\n.type fr\n01 11\n");
        assert_eq!(fault(text.as_bytes()), 2);
    }
}

#[test]
fn a_missing_end() {
    assert_eq!(fault(b""), 1);
    assert_eq!(fault(b"\n"), 2);
    assert_eq!(fault(b"#"), 2);
    assert_eq!(fault(b".i 2"), 2);
    assert_eq!(fault(b".i 2\n.o 2\n.type fr\n01 11"), 5);
    assert_eq!(fault(b".i 2\n.o 2\n.type fr\n01 11\n"), 5);
    assert_eq!(fault(b".i 2\n.o 2\n.type fr\n01 11\n\n"), 6);
}

#[test]
fn lines_that_begin_no_accepted_text() {
    let faults: [(&[u8], u64); 38] = [
        (b".type fr\n.e", 2),
        (b".type fr\n.i 2\n.e", 3),
        (b".type fr\n.i 2\n.o 3\n.e", 3),
        (b".type fr\n.o 3\n.i 2\n.e", 3),
        (b".type fr\n.i 2\n.i 2\n.o 2\n.e", 3),
        (b".type fr\n.i 2\n.o 2\n.o 2\n.e", 4),
        (b".i 0\n.o 0\n.type fr\n.e", 1),
        (b".i 11\n.o 11\n.type fr\n.e", 1),
        (b".i 02\n.o 02\n.type fr\n.e", 1),
        (b".i 99999999999999999999\n", 1),
        (b".i 4294967298\n.o 2\n.type fr\n.e", 1),
        (b".i2\n.o 2\n.type fr\n.e", 1),
        (b".i\n.o 2\n.type fr\n.e", 1),
        (b".i 2 2\n.o 2\n.type fr\n.e", 1),
        (b".I 2\n.o 2\n.type fr\n.e", 1),
        (b"i 2\n.o 2\n.type fr\n.e", 1),
        (b".i 2\n.o 2\n.type fr\n.type f\n.e", 4),
        (b".i 2\n.o 2\n.type fr\n.type fr\n.e", 4),
        (b".i 2\n.o 2\n.type fr\n.p 0\n.p 0\n.e", 5),
        (b".type fr\n01 11\n.i 2\n.o 2\n.e", 2),
        (b".type fr\n.i 2\n01 11\n.o 2\n.e", 3),
        (b".i 2\n.o 2\n.type fr\n01 11\n.type fr\n.e", 5),
        (b".i 2\n.o 2\n.type fr\n01 11\n.p 1\n.e", 5),
        (b".i 2\n.o 2\n.type fr\n01 11\n.i 2\n.e", 5),
        (b".i 2\n.o 2\n.type fr\n0111\n.e", 4),
        (b".i 2\n.o 2\n.type fr\n01\n.e", 4),
        (b".i 2\n.o 2\n.type fr\n01 11 11\n.e", 4),
        (b".i 2\n.o 2\n.type fr\n011 11\n.e", 4),
        (b".i 2\n.o 2\n.type fr\n01 111\n.e", 4),
        (b".i 2\n.o 2\n.type fr\n01 1-\n.e", 4),
        (b".i 2\n.o 2\n.type fr\n02 11\n.e", 4),
        (b".i 2\n.o 2\n.type fr\n0 1 11\n.e", 4),
        (b".i 2\n.o 2\n.type fr\n01 11\r\n.e", 4),
        (b".i 2\r\n.o 2\n.type fr\n.e", 1),
        (b".i 2\n.o 2\n.type fr\n.e\x0b", 4),
        (b".i 2\n.o 2\n.type fr\n.e\n.e", 5),
        (b".i 2\n.o 2\n.type fr\n.e\n01 11", 5),
        (b".i 2\n.o 2\n.type fr\n\xff\n.e", 4),
    ];
    for (text, line) in faults {
        assert_eq!(fault(text), line, "{:?}", String::from_utf8_lossy(text));
    }
}

#[test]
fn the_program_at_its_limit() {
    let text = ".i 1\n.o 1\n.type fr\n1 0\n.e\n";
    let sheet = ".i 1\n.o 1\n.type f\n.p 1\n0 1\n.e\n";
    let filled = format!("{text}{}", "#".repeat(24_576 - text.len()));
    assert_eq!(rulesheet(filled.as_bytes()), sheet.as_bytes());
    let longer = format!("{filled}#");
    assert_eq!(rulesheet(longer.as_bytes()), b"refused 13 at 0\n");
}

#[test]
fn the_program_refuses() {
    let check = |text: &str, line: &str| {
        assert_eq!(String::from_utf8_lossy(&rulesheet(text.as_bytes())), line, "{text:?}");
    };
    check("", "refused 11 at 1\n");
    check(".i 2\n.o 2\n.type fr\n01 11\n0- 11\n00 01\n.e", "refused 7 at 3\n");
    // 1,024 list words fit, 1,025 do not, though they would be booked once.
    let all = "---------- 1111111111\n";
    let headers = ".i 10\n.o 10\n.type fr\n";
    check(&format!("{headers}{all}1--------- 1111111111\n.e"), "refused 8 at 0\n");
    // No row at all: the fresh sheet, not the transition 0 to 0.
    check(".i 1\n.o 1\n.type fr\n.e", ".i 1\n.o 1\n.type f\n.p 1\n- 1\n.e\n");
}

#[test]
fn the_program_counts_list_words_not_rows() {
    let rows = "1--------- 1111111111\n".repeat(2);
    let text = format!(".i 10\n.o 10\n.type fr\n.p 2\n{rows}.e");
    let fresh: String = (0..10)
        .map(|head| format!("---------- {}1{}\n", "0".repeat(head), "0".repeat(9 - head)))
        .collect();
    let sheet = format!(".i 10\n.o 10\n.type f\n.p 10\n{fresh}.e\n");
    assert_eq!(String::from_utf8_lossy(&rulesheet(text.as_bytes())), sheet);
}
