//! A rating, a row of records or a test as one JSON object. Doubles are printed so that they read
//! back with the same bits.

use crate::rate::{ESTIMATORS, Estimator, Rating};
use crate::repetition::Heard;
use crate::row::{Bad, Record, Row};
use abutfern::numbers::meaning;
use abutfern::{Answer, Winner};

/// The object of one file.
pub fn text(file: &str, rating: &Rating) -> String {
    let answers = ESTIMATORS.iter().zip(&rating.answers);
    let estimates: Vec<String> = answers
        .map(|(estimator, answer)| estimate(estimator, answer, rating))
        .collect();
    let (wide, first) = rating.wide.unwrap_or((0, 0));
    let wide = if wide == 0 {
        "null".to_string()
    } else {
        format!(r#"{{"count":{wide},"first_place":{first}}}"#)
    };
    format!(
        r#"{{"file":{},"symbols":{},"width":{},"estimates":[{}],"symbols_above_width":{wide},"figure":{}}}"#,
        quoted(file),
        rating.symbols,
        rating.width,
        estimates.join(","),
        figure(rating)
    ) + "\n"
}

/// The object of a file that could not be read.
pub fn failure(file: &str, error: &str) -> String {
    format!(r#"{{"file":{},"error":{}}}"#, quoted(file), quoted(error)) + "\n"
}

fn estimate(estimator: &Estimator, answer: &Answer, rating: &Rating) -> String {
    let head = format!(
        r#""estimator":{},"number":{},"answer":{}"#,
        quoted(estimator.name),
        answer.number,
        quoted(meaning(answer.number))
    );
    let rest = match answer.number {
        0 => ran(answer) + &rated(estimator, answer),
        3 => format!(r#","place":{}"#, answer.place),
        6 => shortage(estimator, rating),
        _ => String::new(),
    };
    format!("{{{head}{rest}}}")
}

/// The samples that an estimate had and needs.
fn shortage(estimator: &Estimator, rating: &Rating) -> String {
    format!(
        r#","samples":{},"needed":{}"#,
        estimator.samples(rating),
        estimator.least
    )
}

fn ran(answer: &Answer) -> String {
    let e = &answer.estimate;
    let p_local = if e.p_local < 0.0 {
        "null".to_string()
    } else {
        format!("{:?}", e.p_local)
    };
    format!(
        r#","c":{},"n":{},"longest_run":{},"k":{},"rounds":{},"p_global":{:?},"p_global_prime":{:?},"p_local":{p_local},"min_entropy":{:?}"#,
        e.c,
        e.n,
        e.max_run_len,
        answer.k,
        answer.rounds,
        e.p_global,
        e.p_global_prime,
        e.min_entropy
    )
}

/// Who won, by its number and by the window or prefix that this is.
fn rated(estimator: &Estimator, answer: &Answer) -> String {
    let memory = &estimator.memory;
    let length = memory.of(answer.winner);
    let length = length.map_or("null".to_string(), |length| length.to_string());
    format!(
        r#","winner":{},"{}":{length},"score":{}"#,
        answer.winner, memory.name, answer.score
    )
}

/// Who won, as a record tells it: `null` where it does not.
fn recorded(winner: Option<Winner>) -> String {
    match winner {
        None => r#","winner":null,"score":null"#.to_string(),
        Some(Winner { winner, score }) => format!(r#","winner":{winner},"score":{score}"#),
    }
}

fn figure(rating: &Rating) -> String {
    let figure = &rating.figure;
    match figure.number {
        0 => format!(
            r#"{{"number":0,"bits_per_symbol":{:?},"estimator":{}}}"#,
            figure.value,
            quoted(ESTIMATORS[figure.which as usize - 1].name)
        ),
        number => format!(
            r#"{{"number":{number},"bits_per_symbol":null,"estimator":null,"answer":{},"not_run":[{}],"symbols_needed":{}}}"#,
            quoted(&rating.reason()),
            not_run(rating),
            rating.symbols_needed()
        ),
    }
}

/// The estimates that did not run.
fn not_run(rating: &Rating) -> String {
    let not_run = rating.not_run().into_iter().map(|estimator| {
        let name = quoted(estimator.name);
        let shortage = shortage(estimator, rating);
        format!(r#"{{"estimator":{name}{shortage}}}"#)
    });
    not_run.collect::<Vec<_>>().join(",")
}

/// The object of a file of records.
pub fn records(file: &str, row: &Row) -> String {
    let records: Vec<String> = row.records.iter().map(record).collect();
    let bad = row.bad.as_ref().map_or("null".to_string(), bad);
    format!(
        r#"{{"file":{},"records":[{}],"bad":{bad}}}"#,
        quoted(file),
        records.join(",")
    ) + "\n"
}

fn record(record: &Record) -> String {
    let answer = &record.answer;
    let rest = match answer.number {
        0 => ran(answer),
        3 => format!(r#","place":{}"#, answer.place),
        _ => String::new(),
    };
    format!(
        r#"{{"byte":{},"kind":{},"number":{},"answer":{}{rest}{}}}"#,
        record.byte,
        record.kind,
        answer.number,
        quoted(meaning(answer.number)),
        recorded(record.winner)
    )
}

fn bad(bad: &Bad) -> String {
    format!(
        r#"{{"place":{},"byte":{},"number":{},"reason":{}}}"#,
        bad.place,
        bad.byte,
        bad.number,
        quoted(&bad.reason)
    )
}

/// The object of a capture that was tested.
pub fn test(file: &str, entropy: f64, heard: &Heard) -> String {
    let first = heard.first.as_ref().map_or("null".to_string(), |first| {
        format!(r#"{{"place":{},"value":{}}}"#, first.place, first.value)
    });
    format!(
        r#"{{"file":{},"entropy":{entropy:?},"sixty_fourths":{},"cutoff":{},"samples":{},"first_alarm":{first},"alarms":{},"runs":{}}}"#,
        quoted(file),
        heard.sixty_fourths,
        heard.cutoff,
        heard.samples,
        heard.alarms,
        heard.runs
    ) + "\n"
}

/// A JSON string.
fn quoted(text: &str) -> String {
    let mut quoted = String::from("\"");
    for letter in text.chars() {
        match letter {
            '"' | '\\' => quoted.extend(['\\', letter]),
            control if (control as u32) < 32 => {
                quoted += &format!("\\u{:04x}", control as u32);
            }
            other => quoted.push(other),
        }
    }
    quoted + "\""
}

#[cfg(test)]
mod tests {
    use super::*;

    #[test]
    fn names_are_quoted() {
        assert_eq!(quoted("a\"b\\c\n"), r#""a\"b\\c\u000a""#);
    }

    #[test]
    fn who_predicted_is_null_where_it_is_absent_and_0_where_there_is_none() {
        let told = |winner, score| recorded(Some(Winner { winner, score }));
        assert_eq!(recorded(None), r#","winner":null,"score":null"#);
        assert_eq!(told(0, 0), r#","winner":0,"score":0"#);
        assert_eq!(told(2, 12_345), r#","winner":2,"score":12345"#);
    }
}
