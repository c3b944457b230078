//! Outcomes of a guard's entries.

use crate::rule::Rule;
use crate::value::{Buffer, Environment, Kind, Reference};
use std::str::FromStr;

/// What a call came to, as its line of the journal tells it (docs/FORMATS.md, "A line of a journal").
#[derive(Clone, Debug, PartialEq, Eq)]
#[non_exhaustive]
pub enum Outcome {
    /// It is done, and there is nothing to answer.
    Done,
    /// A number.
    Number(i64),
    /// A truth.
    Truth(bool),
    /// No object.
    Null,
    /// A reference.
    Reference(Reference),
    /// An environment.
    Environment(Environment),
    /// The thread isn't attached.
    Detached,
    /// A rule denies it.
    Denied(Rule),
    /// A buffer.
    Buffer(Buffer),
    /// A field, by the numbers of its class and of itself.
    Field(u32, u32),
    /// A list.
    List(Vec<i64>),
    /// The monitor is another thread's.
    Busy,
    /// An exception of this class was thrown.
    Thrown(String),
}

/// The outcome of an entry, and the words that may stand behind it.
#[derive(Clone, Debug, PartialEq, Eq)]
pub struct Entry {
    /// What the call came to.
    pub outcome: Outcome,
    /// A local reference was handed out, and its frame holds more of them than it has room for.
    pub notice: bool,
    /// The answer came with a warning of restricted native access.
    pub warn: bool,
}

impl Entry {
    /// What the line of a journal tells, if it is one.
    pub fn of_line(line: &str) -> Option<Entry> {
        let (_, told) = line.trim_end_matches('\n').rsplit_once(" = ")?;
        let (told, warn) = without(told, " warn");
        let (told, notice) = without(told, " notice");
        Some(Entry {
            outcome: Outcome::of(told)?,
            notice,
            warn,
        })
    }
}

/// The text without the word at its end, and whether that stood there.
fn without<'a>(text: &'a str, word: &str) -> (&'a str, bool) {
    text.strip_suffix(word)
        .map_or((text, false), |text| (text, true))
}

/// The two numbers behind a letter, with a point between them.
fn named<A: FromStr, B: FromStr>(text: &str) -> Option<(A, B)> {
    let (first, second) = text.get(1..)?.split_once('.')?;
    Some((first.parse().ok()?, second.parse().ok()?))
}

fn reference(kind: Kind, text: &str) -> Option<Outcome> {
    let (maker, number) = named(text)?;
    Some(Outcome::Reference(Reference::To {
        kind,
        maker,
        number,
    }))
}

/// The numbers between brackets.
fn list(text: &str) -> Option<Outcome> {
    let inner = text.strip_prefix('[')?.strip_suffix(']')?;
    let items = inner.split(',').filter(|it| !it.is_empty());
    let numbers: Result<Vec<i64>, _> = items.map(str::parse).collect();
    numbers.ok().map(Outcome::List)
}

impl Outcome {
    /// The outcome that the text spells.
    fn of(text: &str) -> Option<Outcome> {
        if let Some(denial) = text.strip_prefix("deny ") {
            let number = denial.split_once(' ')?.0.parse().ok()?;
            return Rule::of_number(number).map(Outcome::Denied);
        }
        if let Some(class) = text.strip_prefix("throw ") {
            return Some(Outcome::Thrown(class.to_owned()));
        }
        match text {
            "ok" => Some(Outcome::Done),
            "true" => Some(Outcome::Truth(true)),
            "false" => Some(Outcome::Truth(false)),
            "null" => Some(Outcome::Null),
            "detached" => Some(Outcome::Detached),
            "busy" => Some(Outcome::Busy),
            _ => Outcome::of_name(text),
        }
    }

    /// The outcome that is a name, a list or a number.
    fn of_name(text: &str) -> Option<Outcome> {
        match text.chars().next()? {
            'L' => reference(Kind::Local, text),
            'G' => reference(Kind::Global, text),
            'W' => reference(Kind::Weak, text),
            'E' => named(text)
                .map(|(thread, session)| Outcome::Environment(Environment { thread, session })),
            'B' => named(text).map(|(maker, number)| Outcome::Buffer(Buffer { maker, number })),
            'F' => named(text).map(|(class, field)| Outcome::Field(class, field)),
            '[' => list(text),
            _ => text.parse().ok().map(Outcome::Number),
        }
    }
}

#[cfg(test)]
mod tests {
    use super::*;

    fn of(text: &str) -> Option<Outcome> {
        Outcome::of(text)
    }

    #[test]
    fn outcomes_are_read_as_they_are_spelt() {
        let (thread, maker, number) = (1, 1, 2);
        let local = Reference::local(maker, number);
        assert_eq!(of("ok"), Some(Outcome::Done));
        assert_eq!(of("-1"), Some(Outcome::Number(-1)));
        assert_eq!(of("true"), Some(Outcome::Truth(true)));
        assert_eq!(of("null"), Some(Outcome::Null));
        assert_eq!(of("L1.2"), Some(Outcome::Reference(local)));
        let env = Environment { thread, session: 3 };
        assert_eq!(of("E1.3"), Some(Outcome::Environment(env)));
        assert_eq!(of("detached"), Some(Outcome::Detached));
        let denied = Outcome::Denied(Rule::DeadReference);
        assert_eq!(of("deny 6 DeadReference"), Some(denied));
        let buffer = Buffer { maker, number };
        assert_eq!(of("B1.2"), Some(Outcome::Buffer(buffer)));
        assert_eq!(of("F15.1"), Some(Outcome::Field(15, 1)));
        assert_eq!(of("[72,-105]"), Some(Outcome::List(vec![72, -105])));
        assert_eq!(of("[]"), Some(Outcome::List(vec![])));
        assert_eq!(of("busy"), Some(Outcome::Busy));
        let thrown = Outcome::Thrown("java/lang/NoSuchFieldError".into());
        assert_eq!(of("throw java/lang/NoSuchFieldError"), Some(thrown));
    }

    #[test]
    fn other_texts_are_none() {
        for text in ["", "L1", "Lx.1", "deny 18 Fly", "[1,x]", "L1.2 x", "ö"] {
            assert_eq!(of(text), None, "{text}");
        }
        assert_eq!(Entry::of_line("T1 - GetEnv"), None);
    }

    #[test]
    fn words_behind_an_outcome_are_read() {
        let entry = Entry::of_line("T1 E1.1 LoadLibrary a/B = = ok notice warn\n");
        let outcome = Outcome::Done;
        let (notice, warn) = (true, true);
        assert_eq!(
            entry,
            Some(Entry {
                outcome,
                notice,
                warn
            })
        );
    }
}
