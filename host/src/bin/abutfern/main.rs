//! The command for the people at the bench: rates captures with the proved library, writes and
//! shows its records, and runs the repetition count test over captures.

mod arguments;
mod failure;
mod files;
mod health;
mod help;
mod json;
mod list;
mod names;
mod progress;
mod rate;
mod reason;
mod records;
mod repetition;
mod row;
mod show;
mod streams;
mod table;
mod values;
mod verdict;
mod whole;
mod winner;
mod work;

use arguments::Call;
use std::process::ExitCode;

fn main() -> ExitCode {
    match arguments::read(std::env::args_os().skip(1)) {
        Ok(Call::Help) => ended(streams::output_is_open() && streams::print(help::HELP)),
        Ok(Call::Version) => ended(streams::output_is_open() && streams::print(help::VERSION)),
        Ok(Call::Rate(call)) => ended(rated(&call)),
        Ok(Call::Show(call)) => ended(shown(&call)),
        Ok(Call::Health(call)) => ended(tested(&call)),
        Err(error) => {
            let usage = help::USAGE;
            streams::say(&format!("{error}\n{usage}\nabutfern --help says the rest"));
            ExitCode::from(2)
        }
    }
}

fn ended(good: bool) -> ExitCode {
    if good {
        ExitCode::SUCCESS
    } else {
        ExitCode::FAILURE
    }
}

fn rated(call: &arguments::Rate) -> bool {
    let writer = call.records.as_ref().map(|_| "write_record");
    has(rate::CALLED.into_iter().chain(writer)) && streams::output_is_open() && work::rate_all(call)
}

fn shown(call: &arguments::Show) -> bool {
    has(row::CALLED) && streams::output_is_open() && show::show_all(call)
}

fn tested(call: &arguments::Health) -> bool {
    has(repetition::CALLED) && streams::output_is_open() && health::test_all(call)
}

/// Whether the library has these functions; says so if not.
fn has(functions: impl IntoIterator<Item = &'static str>) -> bool {
    let missing = functions.into_iter().find(|name| !abutfern::exported(name));
    if let Some(missing) = missing {
        streams::say(&format!(
            "the library that this was built with has no {missing}: build it anew, from its sources"
        ));
    }
    missing.is_none()
}
