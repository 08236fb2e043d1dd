//! A rating as a table for people.

use crate::rate::{ESTIMATORS, Estimator, Rating};
use crate::winner;
use abutfern::Answer;
use abutfern::numbers::meaning;

/// The table of one file.
pub fn text(file: &str, rating: &Rating) -> String {
    let mut text = format!(
        "{file}: {} at width {}\n\n{}",
        counted(rating.symbols, "symbol"),
        rating.width,
        HEADER
    );
    for (estimator, answer) in ESTIMATORS.iter().zip(&rating.answers) {
        let row = row(estimator, answer, rating);
        text += &format!("  {:<17} {row}\n", estimator.name);
    }
    text += &winners(rating);
    if let Some((count, first)) = rating.wide {
        text += &format!(
            "\n  note: symbols with bits above width {}: {}, the first at place {}. The bitstring track\n  \
             leaves those bits out, the literal track counts the whole byte.\n",
            rating.width,
            grouped(count as u64),
            grouped(first as u64)
        );
    }
    text + &format!("\n{}\n", figure(rating))
}

const HEADER: &str = concat!(
    "  estimator         answer          C            N  longest run    k",
    "  p_global  p_global'   p_local  min-entropy\n"
);

fn row(estimator: &Estimator, answer: &Answer, rating: &Rating) -> String {
    let e = &answer.estimate;
    match answer.number {
        0 => format!(
            "done  {:>11} {:>12} {:>12} {:>4}  {:.6}  {:.7}  {}  {} per {}",
            grouped(e.c),
            grouped(e.n),
            grouped(e.max_run_len),
            answer.k,
            e.p_global,
            e.p_global_prime,
            local(e.p_local),
            rounded_down(e.min_entropy),
            estimator.sample
        ),
        6 => {
            let had = counted(estimator.samples(rating), "sample");
            let needed = grouped(estimator.least as u64);
            format!("not run: {had}, {needed} needed (answer 6)")
        }
        3 => format!(
            "refused: {}, the first at place {} (answer 3)",
            meaning(3),
            grouped(answer.place)
        ),
        number => format!("refused: {} (answer {number})", meaning(number)),
    }
}

/// Who won each estimate that ran: the lengths stand below each other, so that short and long
/// memory are told apart at a glance.
fn winners(rating: &Rating) -> String {
    let answers = ESTIMATORS.iter().zip(&rating.answers);
    let lines: String = answers
        .filter(|(_, answer)| answer.number == 0)
        .map(|(estimator, answer)| {
            let winner = winner::rated(estimator, answer);
            format!("  {:<17} {winner}\n", estimator.name)
        })
        .collect();
    if lines.is_empty() {
        return lines;
    }
    format!("\n{WINNERS}{lines}")
}

const WINNERS: &str = "  estimator         winner, by its window or prefix in samples\n";

/// p_local, which is there only if it was solved.
pub fn local(p_local: f64) -> String {
    if p_local < 0.0 {
        "unsolved".to_string()
    } else {
        format!("{p_local:.6}")
    }
}

/// The board figure, or why there is none, which estimates did not run and what to do.
fn figure(rating: &Rating) -> String {
    let figure = &rating.figure;
    let reason = rating.reason();
    match figure.number {
        0 => format!(
            "  board figure: {} bits of min-entropy per symbol, from {}\n",
            rounded_down(figure.value),
            ESTIMATORS[figure.which as usize - 1].name
        ),
        6 => format!(
            "  board figure: none, since {reason} (answer 6)\n{}",
            not_run(rating, "")
        ),
        number => format!(
            "  board figure: none, an estimate was refused: {reason} (answer {number})\n{}",
            besides(rating)
        ),
    }
}

/// The estimates that did not run beside one that was refused, where there are such.
fn besides(rating: &Rating) -> String {
    if rating.not_run().is_empty() {
        return String::new();
    }
    format!(
        "  besides, {}\n{}",
        rating.how_many_not_run(),
        not_run(rating, "mend what was refused, ")
    )
}

/// What each estimate that did not run had and needs, and what to do, the `first` thing before it.
fn not_run(rating: &Rating, first: &str) -> String {
    let mut text = String::new();
    for estimator in rating.not_run() {
        text += &format!(
            "    {} had {} and needs {}\n",
            estimator.name,
            counted(estimator.samples(rating), estimator.sample),
            grouped(estimator.least as u64)
        );
    }
    text + &format!(
        "    to have a figure, {first}record {} symbols or more of this board and rate that capture\n",
        grouped(rating.symbols_needed())
    )
}

/// Six places after the point, never more than the value.
pub fn rounded_down(entropy: f64) -> String {
    let millionths = (entropy.abs() * 1e6).floor() as u64;
    format!("{}.{:06}", millionths / 1_000_000, millionths % 1_000_000)
}

/// A number with its thousands apart.
pub fn grouped(number: u64) -> String {
    if number < 1000 {
        return number.to_string();
    }
    format!("{},{:03}", grouped(number / 1000), number % 1000)
}

/// A number of things, of which one is called `thing`.
pub fn counted(number: u64, thing: &str) -> String {
    let more = if number == 1 { "" } else { "s" };
    format!("{} {thing}{more}", grouped(number))
}

#[cfg(test)]
mod tests {
    use super::*;

    #[test]
    fn one_thing_is_no_more() {
        assert_eq!(
            [0, 1, 2, 4095].map(|number| counted(number, "bit")),
            ["0 bits", "1 bit", "2 bits", "4,095 bits"]
        );
    }

    #[test]
    fn thousands_stand_apart() {
        assert_eq!(
            [0, 999, 1000, 16_777_216].map(grouped),
            ["0", "999", "1,000", "16,777,216"]
        );
    }

    #[test]
    fn an_entropy_is_never_shown_larger() {
        assert_eq!(rounded_down(-0.0), "0.000000");
        assert_eq!(rounded_down(1.0 - 2f64.powi(-24)), "0.999999");
        assert_eq!(rounded_down(7.956_766_486_167_908), "7.956766");
        assert_eq!(rounded_down(8.0), "8.000000");
    }
}
