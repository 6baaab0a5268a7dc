//! What a run does.

use std::fmt;

/// How a run ends; values are in print.
#[derive(Clone, Debug, PartialEq, Eq)]
pub enum End {
    /// With a value.
    Value(String),
    /// With a thrown value.
    Thrown(String),
    /// Where the language says nothing: the name of the reason.
    Stuck(String),
    /// With no turn left.
    OutOfTurns,
}

/// A call of the host; its name and its values are in print.
#[derive(Clone, Debug, PartialEq, Eq)]
pub struct Call<'a> {
    /// The function's name, or the operator's symbol.
    pub name: &'a str,
    /// What a method is called on.
    pub receiver: Option<&'a str>,
    /// The arguments.
    pub arguments: Vec<&'a str>,
}

impl<'a> Call<'a> {
    /// The call of a line, if it is one.
    fn of_line(line: &'a str) -> Option<Call<'a>> {
        let mut parts = line.split('\t');
        let receives = match parts.next()? {
            "call" => false,
            "method" => true,
            _ => return None,
        };
        Some(Call {
            name: parts.next()?,
            receiver: if receives { Some(parts.next()?) } else { None },
            arguments: parts.collect(),
        })
    }
}

/// What a run does: how it ends, the turns that are left, its variables, exports and calls. Values are in print: texts as
/// literals, in which a quote, a backslash, a line end and a tab stand behind a backslash. So nothing that a script says
/// reads as another part of its report. Printed it has a line for each thing, with a tab between its parts.
#[derive(Clone, Debug, PartialEq, Eq)]
pub struct Report {
    text: String,
}

impl Report {
    pub(crate) fn new(text: String) -> Report {
        Report { text }
    }

    /// The report of the same run that had so many turns more to spend.
    pub(crate) fn with_more(self, turns: u64) -> Report {
        let left = self.turns_left().saturating_add(turns);
        let mut lines = self.text.splitn(3, '\n');
        let (end, _, rest) = (lines.next(), lines.next(), lines.next());
        let (end, rest) = (end.unwrap_or_default(), rest.unwrap_or_default());
        Report {
            text: format!("{end}\nturns left\t{left}\n{rest}"),
        }
    }

    /// How it ends.
    pub fn end(&self) -> End {
        let end = self.of_kind("end").next().unwrap_or_default();
        match end[..] {
            ["value", value] => End::Value(value.to_string()),
            ["thrown", value] => End::Thrown(value.to_string()),
            ["stuck", _, name] => End::Stuck(name.to_string()),
            _ => End::OutOfTurns,
        }
    }

    /// The turns that are left.
    pub fn turns_left(&self) -> u64 {
        let turns = self.of_kind("turns left").next().unwrap_or_default();
        turns.first().and_then(|it| it.parse().ok()).unwrap_or(0)
    }

    /// The calls of the host in their order.
    pub fn calls(&self) -> impl Iterator<Item = Call<'_>> {
        self.text.lines().filter_map(Call::of_line)
    }

    /// The variables that are left, each with its value in print.
    pub fn variables(&self) -> impl Iterator<Item = (&str, &str)> {
        self.named("variable")
    }

    /// The constants that are left, each with its value in print.
    pub fn constants(&self) -> impl Iterator<Item = (&str, &str)> {
        self.named("constant")
    }

    /// What is exported, each with its value in print.
    pub fn exports(&self) -> impl Iterator<Item = (&str, &str)> {
        self.named("export")
    }

    fn named<'a>(&'a self, kind: &'a str) -> impl Iterator<Item = (&'a str, &'a str)> {
        self.of_kind(kind).filter_map(|parts| match parts[..] {
            [name, value] => Some((name, value)),
            _ => None,
        })
    }

    /// The parts of the lines of a kind.
    fn of_kind<'a>(&'a self, kind: &'a str) -> impl Iterator<Item = Vec<&'a str>> {
        self.text.lines().filter_map(move |line| {
            let mut parts = line.split('\t');
            (parts.next() == Some(kind)).then(|| parts.collect())
        })
    }
}

impl fmt::Display for Report {
    fn fmt(&self, f: &mut fmt::Formatter<'_>) -> fmt::Result {
        f.write_str(&self.text)
    }
}

#[cfg(test)]
mod tests {
    use super::*;

    #[test]
    fn a_report_with_more_turns_has_them_and_all_else() {
        let text = "end\tvalue\t\"turns left\\t5\"\nturns left\t5\nvariable\tb\t\"turns left\"\n";
        let report = Report::new(text.to_string()).with_more(10);
        assert_eq!(report.turns_left(), 15);
        assert_eq!(report.to_string(), text.replacen("left\t5", "left\t15", 1));
    }
}
