//! The seed that a comparing program is given, from which all of its inputs
//! follow.

/// Takes `--seed NUMBER` out of the arguments, decimal or hexadecimal after 0x.
pub fn take_seed(arguments: &mut Vec<String>) -> Result<Option<u64>, String> {
    let Some(at) = arguments.iter().position(|argument| argument == "--seed") else {
        return Ok(None);
    };
    let number = arguments.get(at + 1).and_then(|argument| parse(argument));
    arguments.drain(at..arguments.len().min(at + 2));
    number.map(Some).ok_or("--seed is followed by no number".to_string())
}

fn parse(argument: &str) -> Option<u64> {
    match argument.strip_prefix("0x") {
        Some(digits) => u64::from_str_radix(digits, 16).ok(),
        None => argument.parse().ok(),
    }
}

#[cfg(test)]
mod tests {
    use super::*;

    #[test]
    fn the_seed_is_taken_out() {
        let taken = |line: &str| {
            let mut arguments: Vec<String> = line.split(' ').map(str::to_string).collect();
            let seed = take_seed(&mut arguments);
            (seed.ok(), arguments.join(" "))
        };
        assert_eq!(taken("a b"), (Some(None), "a b".to_string()));
        assert_eq!(taken("--seed 12 b"), (Some(Some(12)), "b".to_string()));
        assert_eq!(taken("a --seed 0xff"), (Some(Some(255)), "a".to_string()));
        assert_eq!(taken("a --seed"), (None, "a".to_string()));
        assert_eq!(taken("--seed x b"), (None, "b".to_string()));
    }
}
