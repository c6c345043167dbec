//! Plan files: a plan and multipliers as a text of words, with blanks and line ends between them.
//!
//! ```text
//! plan 4 102
//! multipliers -16
//! ```

use std::str::FromStr;

/// A plan and multipliers, of whatever lengths.
#[derive(Clone, Debug, PartialEq, Eq)]
pub struct PlanFile {
    /// The plan.
    pub plan: Vec<i32>,
    /// The multipliers.
    pub multipliers: Vec<i32>,
}

impl FromStr for PlanFile {
    type Err = String;

    fn from_str(text: &str) -> Result<PlanFile, String> {
        let words: Vec<&str> = text.split_ascii_whitespace().collect();
        let ["plan", numbers @ ..] = words.as_slice() else {
            return Err("a plan file begins with the word `plan`".to_string());
        };
        let middle = numbers.iter().position(|word| *word == "multipliers");
        let middle = middle.ok_or("a plan file has the word `multipliers`")?;
        let (plan, multipliers) = (&numbers[..middle], &numbers[middle + 1..]);
        Ok(PlanFile {
            plan: parsed(plan)?,
            multipliers: parsed(multipliers)?,
        })
    }
}

/// The numbers that the words are.
fn parsed(words: &[&str]) -> Result<Vec<i32>, String> {
    let number = |word: &&str| {
        let number = word.parse::<i32>();
        number.map_err(|_| format!("`{word}` is no 32-bit number"))
    };
    words.iter().map(number).collect()
}
