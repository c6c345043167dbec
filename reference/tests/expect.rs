//! The text of cases and the expected output.

mod tapes;

use reference::cases::{expect, read_numbers, reference_numbers};
use reference::read;
use tapes::*;

#[test]
fn every_call() {
    let f = format!("{F_FRONT} 50 19 00 05 00 40 9C 00 00 FF");
    let m9 = format!("{M9_FRONT} 50 19 00 05 00 40 9C 00 00 FF");
    let open = format!("{F_FRONT} 50 19 00 05 00 30 75 00 00 FF");
    let cases = format!(
        "# tape F\n\
         judge {f} / 4 102 / -16\n\
         judge {f}/3 102/-16\n\
         judge {f} / 4 103 / -16\n\
         judge {f} / 41 103 / -16\n\
         judge {f} / 4 102 / 0\n\
         judge {f} / 4 102 / 16777217\n\
         \n\
         \x20 show {m9} / -100\n\
         show {m9} / 0\n\
         solve {f} / 7 8 / 9\n\
         solve {m9} / 7 8 / 9\n\
         solve {open} / 7 8 / 9\n\
         solve {f} / 7 / \n\
         solve / / 5\n\
         read 1001\n\
         read\n"
    );
    let expected = "gap 32768\n\
        gap 4096\n\
        refused 10 0 0 103 102\n\
        refused 11 0 1 41 40\n\
        refused 13 327680 0\n\
        refused 12 -\n\
        shown\n\
        refused 14 -\n\
        proved 2 32768 4 0 0 0\nplan 4 102\nmultipliers -16\n\
        impossible 2\nplan 7 8\nmultipliers -234\n\
        refused 15 5\nplan 7 8\nmultipliers 9\n\
        refused 9 -\nplan 7\nmultipliers\n\
        refused 1 0\nplan\nmultipliers 5\n\
        refused 1 0\n\
        refused 1 0\n";
    assert_eq!(expect(&cases).unwrap(), expected);
}

#[test]
fn the_banded_step() {
    let (f, operands) = (F_FRONT, "19 00 05 00 40 9C 00 00 FF");
    // 4657847914607935488 is 2560, 4607182418800017408 is 1, 4619567317775286272 is 7.
    let cases = [
        (format!("banded {f} 50 {operands}"), "step 0"),
        (format!("banded {f} 51 {operands}"), "step 1"),
        (format!("banded {f} FF"), "refused 7 36"),
        (format!("banded {f} 51 {operands} 00"), "refused 8 46"),
        ("banded".to_string(), "refused 1 0"),
        ("pivot 3FF0000000000000".to_string(), "usable 1"),
        ("pivot 0000000000000001".to_string(), "usable 1"),
        ("pivot 0000000000000000".to_string(), "usable 0"),
        ("pivot 7FF0000000000000".to_string(), "usable 0"),
        ("pivot 7FF8000000000000".to_string(), "usable 0"),
        ("next 3FE0000000000000 / 5".to_string(), "next 6"),
        ("next BFE0000000000000/ -5".to_string(), "next -5"),
        (
            "next 41F0000000000000 / -16777216".to_string(),
            "next 16777216",
        ),
        (
            "next FFF0000000000000 / 16777216".to_string(),
            "next 16777216",
        ),
        (
            format!("correction {f} 51 {operands} / 2560"),
            "correction 1 / 4657847914607935488 / 4607182418800017408",
        ),
        (
            format!("correction {f} 50 {operands} / 2560"),
            "correction 0 / 4619567317775286272 / 4619567317775286272",
        ),
        (format!("correction {f} 51 {operands} / "), "refused 9 -"),
        (format!("correction {f} 51 {operands} / 1 2"), "refused 9 -"),
        (format!("correction {f} FF / 1"), "refused 7 36"),
    ];
    for (case, line) in cases {
        assert_eq!(expect(&case).unwrap(), format!("{line}\n"), "{case}");
    }
}

#[test]
fn ranges_or_the_refusal_of_judge() {
    let f = format!("{F_FRONT} 50 19 00 05 00 40 9C 00 00 FF");
    let pair = format!("{PAIR_FRONT} 50 01 00 01 00 FF FF FF FF FF");
    // The arguments of each, and the line; `judge` has the same unless it is accepted.
    let cases = [
        (format!("{f} / 4 102 / -16"), "ranges 1 7 0 0 0 0 0 0"),
        (format!("{f}/3 102/-16"), "ranges 3 5 0 0 0 0 0 0"),
        (
            format!("{pair} / 0 1 20 23 0 1 32 26 / 0 0 0 0"),
            "ranges -8 8 -6 8 0 0 0 0",
        ),
        (format!("{f} / 4 103 / -16"), "refused 10 0 0 103 102"),
        (format!("{f} / 41 103 / -16"), "refused 11 0 1 41 40"),
        (format!("{f} / 4 102 / 0"), "refused 13 327680 0"),
        (format!("{f} / 4 103 / 16777217"), "refused 12 -"),
        (format!("{f} / 4 / 16777217"), "refused 9 -"),
        (format!("{f} / 4 102 / "), "refused 9 -"),
        (format!("{F_FRONT} FF / 4 / "), "refused 7 36"),
        (" / / ".to_string(), "refused 1 0"),
    ];
    for (arguments, line) in cases {
        let answer = |call: &str| expect(&format!("{call} {arguments}")).unwrap();
        assert_eq!(answer("ranges"), format!("{line}\n"));
        if line.starts_with("refused") {
            assert_eq!(answer("judge"), format!("{line}\n"));
        }
    }
}

#[test]
fn read_line_has_all_places() {
    let tape = with_search(PAIR_FRONT, 3, 7, 9);
    let numbers = read_numbers(&read(&tape).unwrap());
    let mut expected = vec![0; 118];
    expected[..3].copy_from_slice(&[2, 2, 2]);
    // A from place 3 in rows of 6, B from 39 in rows of 4.
    (expected[3], expected[4], expected[3 + 6 + 1]) = (4096, 2048, 4096);
    (expected[39], expected[39 + 4 + 1]) = (4096, 4096);
    // w from 63, lo from 69, hi from 79, r from 89, h from 99, x(0) from 109.
    expected[64] = 8192;
    expected[69..73].copy_from_slice(&[-1000; 4]);
    expected[79..83].copy_from_slice(&[1000; 4]);
    expected[89..93].copy_from_slice(&[20, 25, 0, 1]);
    expected[99..103].copy_from_slice(&[1, 2, 3, 4]);
    expected[109..111].copy_from_slice(&[10, 20]);
    expected[115..].copy_from_slice(&[3, 7, 9]);
    assert_eq!(numbers, expected);
    let digits: String = tape.iter().map(|byte| format!("{byte:02x}")).collect();
    let line = expect(&format!("read {digits}")).unwrap();
    let words: Vec<String> = expected.iter().map(|number| number.to_string()).collect();
    assert_eq!(line, format!("read {}\n", words.join(" ")));
}

#[test]
fn steps_line_has_all_places() {
    // Column 0 with 30's r and 0 in its two steps, column 3 with −1 and 1000.
    let front = format!("{PAIR_FRONT} 31 03 01 E8 03 31 00 00 14 00 31 03 00 FF FF 31 00 01 00 00");
    let numbers = reference_numbers(&read(&with_search(&front, 3, 7, 9)).unwrap());
    let mut expected = vec![0; 240];
    // Step k of column c at 12c + k, its mark at 120 + 12c + k.
    (expected[0], expected[36], expected[37]) = (20, -1, 1000);
    for mark in [120, 121, 156, 157] {
        expected[mark] = 1;
    }
    assert_eq!(numbers, expected);
    let words: Vec<String> = expected.iter().map(|number| number.to_string()).collect();
    let cases = format!(
        "steps {front} 50 03 00 07 00 09 00 00 00 FF\n\
         steps {front} 50 03 00 07 00 09 00 00 00\n\
         steps\n"
    );
    // 4 + 25 + 6 + 36 + 8 bytes of the pair, 20 of commands 31, 9 of command 50.
    let lines = format!("steps {}\nrefused 1 108\nrefused 1 0\n", words.join(" "));
    assert_eq!(expect(&cases).unwrap(), lines);
}

#[test]
fn imports() {
    let cases = "entry 3FF0000000000000\n\
        entry BFF0000000000000\n\
        entry 8000000000000000\n\
        entry 0000000000000001\n\
        entry BF20000000000000\n\
        entry 7FF0000000000000\n\
        entry 7FEFFFFFFFFFFFFF\n\
        model 3FF0000000000000 3FE0000000000000 / 1 1 1 1 10\n\
        model 3FF0000000000000BF30000000000000 / 1 1 1 1 10\n\
        model 3FF00000000000007FF0000000000000 / 1 1 1 1 10\n\
        model 3FF00000000000003FF0000000000000 / 1 1 1 1 9\n\
        model 3FF0000000000000 / 1 1 0 1 2\n\
        model / 7 1 0 0 0\n";
    // −1/2 has the bits BFE0000000000000.
    let expected = "whole 4096\n\
        whole -4096\n\
        whole 0\n\
        near 0 4096\n\
        near 0 13826050856027422720\n\
        refused 16 -\n\
        refused 17 -\n\
        written\nout 32 0 0 0 16 33 0 0 0 8\n\
        written\nout 32 0 0 0 16 33 0 0 255 255\n\
        refused 16 1\nout 7 7 7 7 7 7 7 7 7 7\n\
        refused 9 -\nout 7 7 7 7 7 7 7 7 7\n\
        refused 9 -\nout 7 7\n\
        refused 5 -\nout\n";
    assert_eq!(expect(cases).unwrap(), expected);
}

#[test]
fn given_marks() {
    let none = "00".repeat(18);
    // 136 bits, and the one of place 136.
    let all = format!("{}01", "FF".repeat(17));
    // Place 16, the rounds command, is bit 0 of byte 2; place 64 is bit 0 of byte 8.
    let rounds = format!("{}01{}", "00".repeat(2), "00".repeat(15));
    let step = format!("{}01{}", "00".repeat(8), "00".repeat(9));
    let (zero, ones) = ("00".repeat(24), "FF".repeat(24));
    let cases = format!(
        "missing {none} / 6 4 12\n\
         missing {all} / 6 4 12\n\
         missing {rounds}/6 4 12\n\
         missing {rounds} / 1 1 1\n\
         missing {step} / 6 4 12\n\
         missing {step} / 6 4 11\n\
         missing {step} / 1 2 12\n\
         count {zero} {zero}\n\
         count {ones} {zero}\n\
         count {zero}{ones}\n\
         count 00 00 00 00 00 00 00 80 {} 03 {} 01 {}\n",
        "00".repeat(8),
        "00".repeat(7),
        "00".repeat(23),
    );
    // 10 columns, 6 start values and the rounds; 2, 1 and 1. Place 64 is step 11 of column 3. The
    // last: bits 63, 128 and 129, of which none is given; bit 0 is given and not asked for.
    let expected = "missing 17\n\
        missing 0\n\
        missing 16\n\
        missing 3\n\
        missing 28\n\
        missing 17\n\
        missing 5\n\
        count 0\n\
        count 192\n\
        count 0\n\
        count 3\n";
    assert_eq!(expect(&cases).unwrap(), expected);
}

#[test]
fn whole_numbers() {
    let cases = "quotient -1 2 / 1 2 / -9223372036854775808 9223372036854775807\n\
        quotient_up -1 2 / 1 2 / 4 2 / -9223372036854775808 9223372036854775807\n\
        limit -4 -3 9 / 10 -3 9 / 5 -3 9\n\
        size 7 / -9223372036854775808\n\
        square 9 2 / -9 2 / 8 2 / 0 5 / 9223372036854775807 1\n\
        range 1 0 40 0 -32768 32768 / 0 -3 9 5 -7 1 / 1 -3 9 5 9223372036854775807 0\n\
        range 255 -20000 20000 -20000 -8355840000 9223372036854775807\n\
        root 0 / 1 / 2 / 4 / 5 / 9223372036854775807 / 18446744073709551615\n\
        root 18446744065119617024 / 18446744065119617025 / 18446744065119617026\n\
        operands 01 80 FF 7F\n";
    // Squares: 81 / 2 is 40.5, upwards, and 64 / 2 is whole. Ranges: tape F's; weight 0; the first piece
    // with gap 0; the third, from −20,000 + 4,000 as far as the limits. Roots: 3,037,000,500² is the
    // first square above the largest i64, and 4,294,967,295² is 18,446,744,065,119,617,025.
    let expected = "quotient -1 0 -2\n\
        quotient_up 0 1 2 -1\n\
        limit -3 9 5\n\
        size 7 9223372036854775808\n\
        square 41 41 32 0 85070591730234615847396907784232501249\n\
        range 1 7 -3 9 -3 -3\n\
        range -20000 20000\n\
        root 0 1 2 2 3 3037000500 4294967296\n\
        root 4294967295 4294967295 4294967296\n\
        operands 1 32769 -32767 32767 2147450881 2147450881\n";
    assert_eq!(expect(cases).unwrap(), expected);
}

#[test]
fn texts_that_are_no_cases() {
    let wrong = [
        "sovle 10 / / ",
        "read 1",
        "read 1g",
        "read +1",
        "read 10 / 1",
        "steps 10 / 1",
        "judge 10 / 1",
        "ranges 10 / 1",
        "ranges 10 / 1 / 1.5",
        "ranges 10 / 1 / 1 / 1",
        "show 10",
        "show 10 / 1.5",
        "show 10 / 2147483648",
        "quotient 1 0",
        "square 1 0",
        "quotient 1 2 3",
        "limit 1 3 2",
        "range",
        "range 1 0 40 0 5",
        "range 1 0 40 0 5 6 7",
        "range 1 0 40 0 5 6 / 1",
        "range -1 0 40 0 5 6",
        "range 256 0 40 0 5 6",
        "range 1 41 40 0 5 6",
        "range 1 -20001 40 0 5 6",
        "range 1 0 20001 0 5 6",
        "range 1 0 40 20001 5 6",
        "range 1 0 40 0 5 -1",
        "range 1 0 40 0 9223372036854775808 6",
        "root",
        "root 1 2",
        "root 1.5",
        "root -1",
        "root 18446744073709551616",
        "size 9223372036854775808",
        "size",
        "entry",
        "entry 3FF000000000000",
        "entry 3ff0000000000000",
        "entry 3FF0000000000000 3FF0000000000000",
        "entry 3FF0000000000000 / 1",
        "model 3FF0000000000000",
        "model 3FF0000000000000 / 1 1 1 1 10",
        "model 3FF0000000000000 / 1 1 1 0",
        "model 3FF0000000000000 / -1 1 1 0 10",
        "model 3FF00000000000 / 1 1 1 0 10",
        "operands 01 02 03",
        "operands 01 02 03 04 / 05 06 07 08",
        "missing",
        "missing 000000000000000000000000000000000000",
        "missing 0000000000000000000000000000000000 / 6 4 12",
        "missing 00000000000000000000000000000000000000 / 6 4 12",
        "missing 000000000000000000000000000000000002 / 6 4 12",
        "missing 000000000000000000000000000000000080 / 6 4 12",
        "missing 000000000000000000000000000000000000 / 6 4",
        "missing 000000000000000000000000000000000000 / 6 4 12 1",
        "missing 000000000000000000000000000000000000 / 0 4 12",
        "missing 000000000000000000000000000000000000 / 7 4 12",
        "missing 000000000000000000000000000000000000 / 6 0 12",
        "missing 000000000000000000000000000000000000 / 6 5 12",
        "missing 000000000000000000000000000000000000 / 6 4 0",
        "missing 000000000000000000000000000000000000 / 6 4 13",
        "missing 000000000000000000000000000000000000 / 6 4 -1",
        "missing 000000000000000000000000000000000000 / 6 4 12 / 1",
        "count",
        "count 00",
        "count 00 / 00",
        "banded 10 / 1",
        "pivot",
        "pivot 3FF0000000000000 3FF0000000000000",
        "pivot 3ff0000000000000",
        "next 3FF0000000000000",
        "next 3FF0000000000000 /",
        "next 3FF0000000000000 / 16777217",
        "next 3FF0000000000000 / -16777217",
        "next 3FF0000000000000 / 1 2",
        "correction 10",
        "correction 10 / 2147483648",
        "correction 10 / 1 / 2",
    ];
    let words = |bytes: usize| format!("count {}", "00".repeat(bytes));
    let words = [47, 49, 24].map(words);
    let wrong = wrong.into_iter().chain(words.iter().map(String::as_str));
    for line in wrong {
        let error = expect(&format!("read 10\n{line}\n")).unwrap_err();
        assert!(error.starts_with("line 2: "), "{line}: {error}");
    }
}
