//! What is to be drawn: for which office, and after which step.

/// The numbers as they were given; whether they fit is known with the log.
#[derive(Clone, Copy, Debug, Default, PartialEq, Eq)]
pub struct Choice {
    /// If not given, the lowest trusted office.
    pub office: Option<usize>,
    /// If not given, all steps.
    pub step: Option<usize>,
}

/// Reads `--office Q` and `--step K`, in any order.
pub fn choose(words: &[&str]) -> Result<Choice, String> {
    let mut choice = Choice::default();
    let mut rest = words;
    while let [name, behind @ ..] = rest {
        let slot = match *name {
            "--office" => &mut choice.office,
            "--step" => &mut choice.step,
            _ => return Err(format!("draw takes --office Q and --step K, not `{name}`")),
        };
        if slot.is_some() {
            return Err(format!("{name} is given twice"));
        }
        let [value, after @ ..] = behind else {
            return Err(format!("a number is due behind {name}"));
        };
        *slot = Some(number(name, value)?);
        rest = after;
    }
    Ok(choice)
}

fn number(name: &str, value: &str) -> Result<usize, String> {
    let digits = value.bytes().all(|byte| byte.is_ascii_digit());
    match value.parse() {
        Ok(number) if digits => Ok(number),
        _ => Err(format!("{name} takes a number, not `{value}`")),
    }
}
