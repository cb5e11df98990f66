use std::env;
use std::process;
use std::str::FromStr;

pub const DEFAULT_SEED: u64 = 20_260_405;

/// The value of `--name` on the command line, or the default. A value that cannot be read ends the
/// program.
#[must_use]
pub fn option<T: FromStr>(name: &str, default: T) -> T {
    given(name).unwrap_or(default)
}

/// The value of `--name`, if the command line has it.
#[must_use]
pub fn given<T: FromStr>(name: &str) -> Option<T> {
    let mut arguments = env::args().skip_while(|argument| argument != name);
    arguments.next()?;
    match arguments.next().and_then(|value| value.parse().ok()) {
        Some(value) => Some(value),
        None => stop(&format!("{name} needs a number")),
    }
}

/// Ends the program if an argument is none of the options.
pub fn only(names: &[&str]) {
    for name in env::args().skip(1).step_by(2) {
        if !names.contains(&name.as_str()) {
            stop(&format!("unknown argument {name}; there are {}", names.join(" and ")));
        }
    }
}

/// Says why, and ends the program.
pub fn stop(why: &str) -> ! {
    eprintln!("{why}");
    process::exit(2)
}
