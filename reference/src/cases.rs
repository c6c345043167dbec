//! A text of test cases, and the output expected from the planner's test programs.
//!
//! One case a line; blank lines and lines that begin with `#` are passed over. A part may be
//! empty. Bytes are pairs of hexadecimal digits, with or without blanks between them. A float is
//! the 16 digits of its bits, in upper case and the first of them first: 3FF0000000000000 is 1.
//! Those of `model` are A's entries and then B's.
//!
//! `missing` has 18 bytes of marks in the order of [`crate::marks`]: place 8j + b is given where
//! bit b of byte j is 1, bit 0 being the lowest. `count` has 48 bytes: three 64-bit words of what is
//! asked for, each low byte first, and three of what is given.
//!
//! A refused `judge` or `ranges` says what the refusal reports: `refused 10 STEP COLUMN FOUND DUE`,
//! `refused 11 STEP COLUMN FOUND DUE`, `refused 13 COST FLOOR`. All others say what they carry, or
//! `-`.
//!
//! `quotient` rounds down, `quotient_up` and `square`, the quotient of the slope's square, up. `range`
//! gives two numbers for each part, and `root` the least number from 0 whose square is at or above the
//! part's, which is below 2^64.
//!
//! `banded` says which step a tape asks for, `pivot` whether a float can be used as one, and `next` what
//! a d makes of a multiplier y. `correction` lends pivots and d as many places as there are residuals,
//! each with [`LENT_FLOAT`] in it. Pivots and d are written as the numbers of their bits, or `nan`.
//!
//! ```text
//! read HEX
//! steps HEX
//! judge HEX / plan numbers / multipliers
//! ranges HEX / plan numbers / multipliers
//! show HEX / multipliers
//! solve HEX / plan numbers / multipliers
//! entry HEX
//! model HEX / n m a_len b_len out_len
//! missing HEX / n m N
//! count HEX
//! banded HEX
//! pivot HEX
//! next HEX / y
//! correction HEX / residuals
//! quotient dividend divisor / ..
//! quotient_up dividend divisor / ..
//! limit number lo hi / ..
//! size number / ..
//! square slope divisor / ..
//! range weight lo hi reference slope gap / ..
//! root number / ..
//! operands HEX
//! ```

use std::any::type_name;
use std::str::FromStr;

use crate::calls::{
    banded_correction, judge_multipliers, judge_plan, read, read_step, solve, Shown, Solved,
};
use crate::floor::MULTIPLIER_RANGE;
use crate::import::{import_entry, import_model, Entry};
use crate::marks::{count_missing, Marks, Sizes};
use crate::model::{ceil_div, floor_div, Column, Furnace, Whole};
use crate::range::{range, ranges, Range};
use crate::refusal::{Fault, Refusal};
use crate::rounds::{next_multiplier, usable};
use crate::tape::{
    signed, unsigned, MOST_COLUMNS, MOST_INPUTS, MOST_STATES, MOST_STEPS, MOST_WEIGHT, NUMBER_RANGE,
};

/// The expected output for a text of cases, or what is wrong with the text.
pub fn expect(text: &str) -> Result<String, String> {
    let mut output = String::new();
    for (index, line) in text.lines().enumerate() {
        let line = line.trim();
        if line.is_empty() || line.starts_with('#') {
            continue;
        }
        let lines = answer(line).map_err(|error| format!("line {}: {error}", index + 1))?;
        output += &lines;
    }
    Ok(output)
}

/// The output lines of one case.
fn answer(line: &str) -> Result<String, String> {
    let (call, rest) = line.split_once(char::is_whitespace).unwrap_or((line, ""));
    let parts: Vec<&str> = rest.split('/').collect();
    match (call, parts.as_slice()) {
        ("read", [tape]) => {
            let line = |furnace| listed("read", read_numbers(&furnace));
            Ok(read(&bytes(tape)?).map_or_else(refused, line))
        }
        ("steps", [tape]) => {
            let line = |furnace| listed("steps", reference_numbers(&furnace));
            Ok(read(&bytes(tape)?).map_or_else(refused, line))
        }
        ("judge", [tape, plan, multipliers]) => {
            let answer = judge_plan(&bytes(tape)?, &numbers(plan)?, &numbers(multipliers)?);
            Ok(answer.map_or_else(refused, |gap| listed("gap", [gap])))
        }
        ("ranges", [tape, plan, multipliers]) => {
            let answer = ranges(&bytes(tape)?, &numbers(plan)?, &numbers(multipliers)?);
            Ok(answer.map_or_else(refused, |ends| listed("ranges", ends)))
        }
        ("show", [tape, multipliers]) => {
            let answer = judge_multipliers(&bytes(tape)?, &numbers(multipliers)?);
            Ok(answer.map_or_else(refused, |Shown| "shown\n".to_string()))
        }
        ("solve", [tape, plan, multipliers]) => {
            let tape = bytes(tape)?;
            Ok(solved(&tape, numbers(plan)?, numbers(multipliers)?))
        }
        ("entry", [entry]) => imported_entry(entry),
        ("model", [entries, lengths]) => imported_model(entries, lengths),
        ("missing", [marks, sizes]) => missing_places(marks, sizes),
        ("count", [words]) => missing_bits(words),
        ("banded", [tape]) => {
            let answer = read_step(&bytes(tape)?);
            Ok(answer.map_or_else(refused, |step| listed("step", [step])))
        }
        ("pivot", [pivot]) => {
            let is_usable = usable(one_float("pivot", pivot)?);
            Ok(listed("usable", [u8::from(is_usable)]))
        }
        ("next", [d, y]) => {
            let d = one_float("next", d)?;
            Ok(listed("next", [next_multiplier(multiplier(y)?, d)]))
        }
        ("correction", [tape, residuals]) => corrected(&bytes(tape)?, &numbers(residuals)?),
        _ if CALLS.contains(&call) => Err(format!("`{call}` has another number of parts")),
        _ => whole_numbers(call, &parts),
    }
}

/// The words of all cases but those of whole numbers.
const CALLS: [&str; 14] = [
    "read",
    "steps",
    "judge",
    "ranges",
    "show",
    "solve",
    "entry",
    "model",
    "missing",
    "count",
    "banded",
    "pivot",
    "next",
    "correction",
];

/// The output lines of a solve: the answer, and what the slices hold then.
fn solved(tape: &[u8], mut plan: Vec<i32>, mut multipliers: Vec<i32>) -> String {
    let answer = match solve(tape, &mut plan, &mut multipliers) {
        Ok(Solved::Proved { rounds, gap, first }) => {
            listed(&format!("proved {rounds} {gap}"), first)
        }
        Ok(Solved::Impossible { rounds }) => format!("impossible {rounds}\n"),
        Err(refusal) => refused(refusal),
    };
    answer + &listed("plan", plan) + &listed("multipliers", multipliers)
}

/// The byte that every place of a lent `out` holds before a model is imported.
const BEFORE: u8 = 7;

/// The output line of an imported entry. The leftover is written as the number of its bits.
fn imported_entry(entry: &str) -> Result<String, String> {
    Ok(match import_entry(one_float("entry", entry)?) {
        Ok(Entry::Whole(number)) => format!("whole {number}\n"),
        Ok(Entry::Near { number, leftover }) => format!("near {number} {}\n", leftover.to_bits()),
        Err(refusal) => refused(refusal),
    })
}

/// The output lines of an imported model: the answer, and what `out` holds then.
fn imported_model(entries: &str, lengths: &str) -> Result<String, String> {
    let entries = floats(entries)?;
    let numbers: Vec<u32> = numbers(lengths)?;
    let [states, inputs, of_a, of_b, bytes] = numbers[..] else {
        return Err("`model` has 5 numbers behind its floats".to_string());
    };
    if entries.len() as u64 != u64::from(of_a) + u64::from(of_b) {
        return Err(format!("{of_a} and {of_b} are not all the floats"));
    }
    let (a, b) = entries.split_at(of_a as usize);
    let mut out = vec![BEFORE; bytes as usize];
    let answer = match import_model(states as usize, inputs as usize, a, b, &mut out) {
        Ok(()) => "written\n".to_string(),
        Err(refusal) => refused(refusal),
    };
    Ok(answer + &listed("out", out))
}

/// The output line of a count of required places without a mark.
fn missing_places(marks: &str, sizes: &str) -> Result<String, String> {
    let marks = given_marks(&bytes(marks)?)?;
    let numbers: Vec<usize> = numbers(sizes)?;
    let [states, inputs, horizon] = numbers[..] else {
        return Err("`missing` has 3 numbers behind its marks".to_string());
    };
    let sizes = Sizes {
        states,
        inputs,
        horizon,
    };
    if !sizes.in_range() {
        return Err(format!("{states} {inputs} {horizon} are no sizes"));
    }
    Ok(listed("missing", [count_missing(sizes, &marks)]))
}

/// How many bytes hold a mark for each place.
const MARK_BYTES: usize = 18;

/// The places whose bit is 1.
fn given_marks(bytes: &[u8]) -> Result<Marks, String> {
    if bytes.len() != MARK_BYTES {
        return Err(format!("`missing` has {MARK_BYTES} bytes of marks"));
    }
    let places = Sizes::MOST.places();
    if (places.len()..8 * MARK_BYTES).any(|place| bit(bytes, place)) {
        return Err("a mark behind the last place".to_string());
    }
    let places = places.into_iter().enumerate();
    let given = places.filter(|(place, _)| bit(bytes, *place));
    Ok(given.map(|(_, place)| place).collect())
}

/// How many bytes three words of 64 bits have.
const WORD_BYTES: usize = 24;

/// The output line of a count of bits that are asked for and not given.
fn missing_bits(words: &str) -> Result<String, String> {
    let bytes = bytes(words)?;
    if bytes.len() != 2 * WORD_BYTES {
        return Err("`count` has 6 words of 64 bits".to_string());
    }
    let (asked, given) = bytes.split_at(WORD_BYTES);
    let mut count = 0;
    for place in 0..8 * WORD_BYTES {
        if bit(asked, place) && !bit(given, place) {
            count += 1;
        }
    }
    Ok(listed("count", [count]))
}

/// Is the bit at this place 1? The lowest bit of the first byte is place 0.
fn bit(bytes: &[u8], place: usize) -> bool {
    bytes[place / 8] >> (place % 8) & 1 == 1
}

/// The float that every place of lent pivots and d holds before a correction.
pub const LENT_FLOAT: f64 = 7.0;

/// The output line of a banded correction: the answer, and what pivots and d hold then.
fn corrected(tape: &[u8], residuals: &[i32]) -> Result<String, String> {
    let residuals: Vec<i64> = residuals.iter().copied().map(i64::from).collect();
    let mut pivots = vec![LENT_FLOAT; residuals.len()];
    let mut d = pivots.clone();
    Ok(
        match banded_correction(tape, &residuals, &mut pivots, &mut d) {
            Ok(out) => {
                let slash = || vec!["/".to_string()];
                let words = [
                    slash(),
                    floats_as_words(&pivots),
                    slash(),
                    floats_as_words(&d),
                ];
                listed(&format!("correction {out}"), words.concat())
            }
            Err(refusal) => refused(refusal),
        },
    )
}

/// Each float as the number of its bits, or `nan`: what is not a number has bits of several kinds.
fn floats_as_words(floats: &[f64]) -> Vec<String> {
    let word = |float: &f64| {
        if float.is_nan() {
            "nan".to_string()
        } else {
            float.to_bits().to_string()
        }
    };
    floats.iter().map(word).collect()
}

/// A multiplier, which is within its range.
fn multiplier(text: &str) -> Result<Whole, String> {
    let [y] = of_part(text)?;
    if y.abs() > MULTIPLIER_RANGE {
        return Err(format!("{y} is no multiplier"));
    }
    Ok(y)
}

/// The output line of a case of whole numbers: the result of each part.
fn whole_numbers(call: &str, parts: &[&str]) -> Result<String, String> {
    let results = match (call, parts) {
        ("quotient", _) => each(parts, |[dividend, divisor]| {
            Ok(floor_div(dividend, from_1(divisor)?))
        }),
        ("quotient_up", _) => each(parts, |[dividend, divisor]| {
            Ok(ceil_div(dividend, from_1(divisor)?))
        }),
        ("limit", _) => each(parts, |[number, lo, hi]| limited(number, lo, hi)),
        ("size", _) => each(parts, |[number]| Ok(number.abs())),
        ("square", _) => each(parts, |[slope, divisor]| {
            Ok(ceil_div(slope * slope, from_1(divisor)?))
        }),
        ("range", _) => ends_of_each(parts),
        ("root", _) => parts.iter().map(|part| root_of(part)).collect(),
        ("operands", [part]) => operands(&bytes(part)?),
        ("operands", _) => Err("`operands` has another number of parts".to_string()),
        _ => Err(format!("no call is named `{call}`")),
    };
    Ok(listed(call, results?))
}

/// The result of each part, which has `COUNT` numbers.
fn each<const COUNT: usize>(
    parts: &[&str],
    result: impl Fn([Whole; COUNT]) -> Result<Whole, String>,
) -> Result<Vec<Whole>, String> {
    parts.iter().map(|part| result(of_part(part)?)).collect()
}

/// The numbers of a part, which has `COUNT` of them.
fn of_part<const COUNT: usize>(part: &str) -> Result<[Whole; COUNT], String> {
    let numbers: Vec<i64> = numbers(part)?;
    let numbers: Vec<Whole> = numbers.into_iter().map(Whole::from).collect();
    let numbers = numbers.try_into();
    numbers.map_err(|_| format!("`{part}` has not {COUNT} numbers"))
}

/// A divisor, which is from 1.
fn from_1(divisor: Whole) -> Result<Whole, String> {
    if divisor < 1 {
        return Err(format!("{divisor} is no divisor from 1"));
    }
    Ok(divisor)
}

/// A number limited to `lo` and `hi`.
fn limited(number: Whole, lo: Whole, hi: Whole) -> Result<Whole, String> {
    if lo > hi {
        return Err(format!("{lo} is above {hi}"));
    }
    Ok(number.clamp(lo, hi))
}

/// The two ends of the range that each part asks for.
fn ends_of_each(parts: &[&str]) -> Result<Vec<Whole>, String> {
    let mut ends = Vec::new();
    for part in parts {
        let [weight, lo, hi, reference, slope, gap] = of_part(part)?;
        let column = legal_column(weight, lo, hi, reference)?;
        if gap < 0 {
            return Err(format!("{gap} is no gap from 0"));
        }
        let Range { low, high } = range(&column, slope, gap);
        ends.extend([low, high]);
    }
    Ok(ends)
}

/// A column with numbers that a command 30 can have.
fn legal_column(weight: Whole, lo: Whole, hi: Whole, reference: Whole) -> Result<Column, String> {
    if !(0..=MOST_WEIGHT).contains(&weight) {
        return Err(format!("{weight} is no weight"));
    }
    let is_beyond = |number: &Whole| number.abs() > NUMBER_RANGE;
    if let Some(number) = [lo, hi, reference].into_iter().find(is_beyond) {
        return Err(format!("{number} is beyond {NUMBER_RANGE} in size"));
    }
    if lo > hi {
        return Err(format!("{lo} is above {hi}"));
    }
    Ok(Column {
        lo,
        hi,
        reference,
        weight,
    })
}

/// The root of a part's only number, which is from 0 and has 64 bits.
fn root_of(part: &str) -> Result<Whole, String> {
    let numbers: Vec<u64> = numbers(part)?;
    let [number] = numbers[..] else {
        return Err(format!("`{part}` has not 1 number"));
    };
    Ok(root(Whole::from(number)))
}

/// The least whole number from 0 whose square is at or above a number of 64 bits. No call needs it:
/// [`range`] tries numbers instead.
fn root(number: Whole) -> Whole {
    // 2^64 is above all of them. From 0 to `short`, where that is not below 0, no square is enough.
    let (mut short, mut enough): (Whole, Whole) = (-1, 1 << 32);
    while enough - short > 1 {
        let middle = (short + enough) / 2;
        if middle * middle >= number {
            enough = middle;
        } else {
            short = middle;
        }
    }
    enough
}

/// Four bytes as every operand that starts at the first of them, and the last two as a signed
/// one: 1 byte, 2 bytes, 2 signed, the last 2 signed, 4 bytes, 4 signed.
fn operands(bytes: &[u8]) -> Result<Vec<Whole>, String> {
    let [first, second, third, fourth] = *bytes else {
        return Err("`operands` has 4 bytes".to_string());
    };
    let (front, back) = ([first, second], [third, fourth]);
    Ok(vec![
        unsigned(&[first]),
        unsigned(&front),
        signed(&front),
        signed(&back),
        unsigned(bytes),
        signed(bytes),
    ])
}

/// The line of a refusal: its number, then what it reports or carries.
fn refused(refusal: Refusal) -> String {
    let number = refusal.number();
    match (refusal, refusal.carried()) {
        (Refusal::OffModel(fault) | Refusal::OverLimit(fault), _) => {
            let Fault {
                step,
                column,
                found,
                due,
            } = fault;
            format!("refused {number} {step} {column} {found} {due}\n")
        }
        (Refusal::Wide { cost, floor }, _) => format!("refused {number} {cost} {floor}\n"),
        (_, Some(carried)) => format!("refused {number} {carried}\n"),
        (_, None) => format!("refused {number} -\n"),
    }
}

/// A line: a word, then numbers.
fn listed<T: ToString>(word: &str, numbers: impl IntoIterator<Item = T>) -> String {
    let mut line = word.to_string();
    for number in numbers {
        line += " ";
        line += &number.to_string();
    }
    line + "\n"
}

/// Read's result as 118 numbers: n m N, A by rows of 6, B by rows of 4, w, lo, hi, r, h, x(0),
/// g, R, T. Places beyond the tape's sizes are 0.
pub fn read_numbers(furnace: &Furnace) -> Vec<Whole> {
    let mut numbers = vec![
        furnace.states as Whole,
        furnace.inputs as Whole,
        furnace.horizon as Whole,
    ];
    for i in 0..MOST_STATES {
        for j in 0..MOST_STATES {
            let inside = i < furnace.states && j < furnace.states;
            numbers.push(if inside { furnace.a[i][j] } else { 0 });
        }
    }
    for i in 0..MOST_STATES {
        for j in 0..MOST_INPUTS {
            let inside = i < furnace.states && j < furnace.inputs;
            numbers.push(if inside { furnace.b[i][j] } else { 0 });
        }
    }
    for i in 0..MOST_STATES {
        numbers.push(furnace.drift.get(i).copied().unwrap_or(0));
    }
    let fields: [fn(&Column) -> Whole; 4] = [|c| c.lo, |c| c.hi, |c| c.reference, |c| c.weight];
    for field in fields {
        for c in 0..MOST_COLUMNS {
            numbers.push(furnace.columns.get(c).map_or(0, field));
        }
    }
    for i in 0..MOST_STATES {
        numbers.push(furnace.start.get(i).copied().unwrap_or(0));
    }
    numbers.push(furnace.step_size);
    numbers.push(Whole::from(furnace.rounds));
    numbers.push(furnace.wanted_gap);
    numbers
}

/// The references of steps as 240 numbers: the one for column c and step k at 12c + k, 0 where none
/// is given, then their marks, 1 where one is given, at 120 + 12c + k.
pub fn reference_numbers(furnace: &Furnace) -> Vec<Whole> {
    let places = MOST_COLUMNS * MOST_STEPS;
    let mut numbers = vec![0; 2 * places];
    for (c, curve) in furnace.curves.iter().enumerate() {
        for (k, reference) in curve.iter().flatten().enumerate() {
            numbers[c * MOST_STEPS + k] = *reference;
            numbers[places + c * MOST_STEPS + k] = 1;
        }
    }
    numbers
}

/// Bytes from hexadecimal digits.
pub fn bytes(text: &str) -> Result<Vec<u8>, String> {
    let mut bytes = Vec::new();
    for word in text.split_whitespace() {
        if !word.bytes().all(|digit| digit.is_ascii_hexdigit()) || word.len() % 2 != 0 {
            return Err(format!("`{word}` is not pairs of hexadecimal digits"));
        }
        for place in (0..word.len()).step_by(2) {
            let byte = u8::from_str_radix(&word[place..place + 2], 16);
            bytes.push(byte.map_err(|error| error.to_string())?);
        }
    }
    Ok(bytes)
}

/// Floats from the hexadecimal digits of their bits.
fn floats(text: &str) -> Result<Vec<f64>, String> {
    if text.bytes().any(|digit| digit.is_ascii_lowercase()) {
        return Err("the digits of floats are in upper case".to_string());
    }
    let bytes = bytes(text)?;
    let (patterns, rest) = bytes.as_chunks();
    if !rest.is_empty() {
        return Err("a float has 16 digits".to_string());
    }
    let bits = patterns.iter().map(|pattern| u64::from_be_bytes(*pattern));
    Ok(bits.map(f64::from_bits).collect())
}

/// The only float of a case.
fn one_float(call: &str, text: &str) -> Result<f64, String> {
    let [float] = floats(text)?[..] else {
        return Err(format!("`{call}` has one float"));
    };
    Ok(float)
}

/// Numbers of the type with blanks between them.
fn numbers<T: FromStr>(text: &str) -> Result<Vec<T>, String> {
    let name = type_name::<T>();
    text.split_whitespace()
        .map(|word| {
            word.parse()
                .map_err(|_| format!("`{word}` is not a number of type {name}"))
        })
        .collect()
}
