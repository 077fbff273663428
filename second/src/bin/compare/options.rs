//! The arguments of the program.

pub const USAGE: &str = "usage: compare [--seed S] [--rounds R]";

const USUAL_SEED: u64 = 9466;
const USUAL_ROUNDS: usize = 1;

#[derive(Clone, Copy, Debug, PartialEq, Eq)]
pub struct Options {
    pub seed: u64,
    /// How often the random parts are run, in each family.
    pub rounds: usize,
}

/// The options, or what is wrong with the arguments.
pub fn read(mut arguments: impl Iterator<Item = String>) -> Result<Options, String> {
    let mut options = Options { seed: USUAL_SEED, rounds: USUAL_ROUNDS };
    while let Some(name) = arguments.next() {
        match name.as_str() {
            "--seed" => options.seed = number(&name, arguments.next())?,
            "--rounds" => options.rounds = number(&name, arguments.next())?,
            _ => return Err(format!("unknown argument `{name}`")),
        }
    }
    if options.rounds == 0 {
        return Err("`--rounds` is at least 1".to_string());
    }
    Ok(options)
}

fn number<N: std::str::FromStr>(name: &str, value: Option<String>) -> Result<N, String> {
    let Some(value) = value else {
        return Err(format!("`{name}` needs a number"));
    };
    value.parse().map_err(|_| format!("`{name}` needs a number, not `{value}`"))
}

#[cfg(test)]
mod tests {
    use super::*;

    fn given(line: &str) -> Result<Options, String> {
        read(line.split_whitespace().map(str::to_string))
    }

    #[test]
    fn usual_and_given() {
        assert_eq!(given(""), Ok(Options { seed: USUAL_SEED, rounds: USUAL_ROUNDS }));
        assert_eq!(given("--rounds 3 --seed 7"), Ok(Options { seed: 7, rounds: 3 }));
    }

    #[test]
    fn faults() {
        assert_eq!(given("--all"), Err("unknown argument `--all`".to_string()));
        assert_eq!(given("7"), Err("unknown argument `7`".to_string()));
        assert_eq!(given("--seed"), Err("`--seed` needs a number".to_string()));
        assert_eq!(given("--seed x"), Err("`--seed` needs a number, not `x`".to_string()));
        assert_eq!(given("--rounds 0"), Err("`--rounds` is at least 1".to_string()));
    }
}
