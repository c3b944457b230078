//! A core that records all that it is asked and told. `jg watch` judges the record again:
//!
//! ```text
//! cargo run --example record | jg watch --denials
//! ```

use jg::{
    Bounds, Core, Environment, Fact, Function, Given, Kind, Object, Reference, Says, Ticket, Value,
    Verdict,
};
use std::error::Error;
use std::io::{self, Write};

const SETUP: &str = "version = 1\nillegal_native_access = \"deny\"\n";

/// A core, and where its record is written. In a machine of several threads one lock is held for each of these calls,
/// so that the lines stand in the order of the calls.
struct Recorded<W> {
    core: Core,
    out: W,
}

type Answer<T> = Result<T, Box<dyn Error>>;

impl<W: Write> Recorded<W> {
    /// The record begins with the bounds by which the core judges.
    fn open(mut out: W) -> Answer<Recorded<W>> {
        let mut core = Core::open(SETUP, Bounds::NONE)?;
        writeln!(out, "{}", core.bounds_line()?)?;
        Ok(Recorded { core, out })
    }

    fn write_fact(&mut self, fact: Fact) -> Answer<()> {
        writeln!(self.out, "{}", self.core.fact_line(fact)?)?;
        Ok(())
    }

    /// Tells a fact. The line of one that can't be isn't written.
    fn tell(&mut self, fact: Fact) -> Answer<Given> {
        let given = self.core.tell(fact)?;
        self.write_fact(fact)?;
        Ok(given)
    }

    fn ask(
        &mut self,
        thread: u16,
        env: Environment,
        function: Function,
        operands: &[Value],
    ) -> Answer<Verdict> {
        let verdict = self.core.ask(thread, Some(env), function, operands)?;
        let line = self
            .core
            .question_line(thread, Some(env), function, operands)?;
        writeln!(self.out, "{line}")?;
        Ok(verdict)
    }

    /// Tells what came of a call. Which fact that is, the ticket knows.
    fn did(&mut self, ticket: Ticket, says: Says) -> Answer<Given> {
        let fact = ticket.told(says)?;
        let given = self.core.did(ticket, says)?;
        if let Some(fact) = fact {
            self.write_fact(fact)?;
        }
        Ok(given)
    }

    /// Asks, and tells at once what the call ends. `kept` is [`Says::Done`]; of PopLocalFrame and NativeLeave it is
    /// what the first operand named. No other line may stand between the question and its fact.
    fn ending(
        &mut self,
        thread: u16,
        env: Environment,
        function: Function,
        operands: &[Value],
        kept: Says,
    ) -> Answer<bool> {
        let line = self
            .core
            .question_line(thread, Some(env), function, operands)?;
        let (verdict, _) = self.core.ending(thread, Some(env), function, operands)?;
        writeln!(self.out, "{line}")?;
        let Verdict::Passed(ticket) = verdict else {
            return Ok(false);
        };
        if let Some(fact) = ticket.told(kept)? {
            self.write_fact(fact)?;
        }
        Ok(true)
    }
}

/// The facts that hand out a name, each with that.
impl<W: Write> Recorded<W> {
    fn begins(&mut self, thread: u16) -> Answer<Environment> {
        match self.tell(Fact::Begins { thread })? {
            Given::Environment(env) => Ok(env),
            _ => Err("no environment is given".into()),
        }
    }

    fn met(&mut self, thread: u16, class: u32, length: u32) -> Answer<Object> {
        let fact = Fact::Met {
            thread,
            class,
            length,
        };
        match self.tell(fact)? {
            Given::Object(object) => Ok(object),
            _ => Err("no object is given".into()),
        }
    }

    fn got(&mut self, thread: u16, kind: Kind, object: Object) -> Answer<Reference> {
        let fact = Fact::Got {
            thread,
            kind,
            object,
        };
        match self.tell(fact)? {
            Given::Reference(reference) => Ok(reference),
            _ => Err("no reference is given".into()),
        }
    }
}

/// Thread 1 is handed a string, deletes its only reference, and uses it once more. Then it makes a string of its own.
fn main() -> Answer<()> {
    let mut it = Recorded::open(io::stdout().lock())?;
    let string_class = it.core.class_named("java/lang/String")?;
    let string_class = string_class.ok_or("each setup states the class of strings")?;
    let env = it.begins(1)?;
    let string = it.met(1, string_class, 5)?;
    let local = it.got(1, Kind::Local, string)?;
    it.ending(
        1,
        env,
        Function::DeleteLocalRef,
        &[local.into()],
        Says::Done,
    )?;
    let dead = it.ask(1, env, Function::GetStringLength, &[local.into()])?;
    if let Some(rule) = dead.rule() {
        eprintln!("GetStringLength: deny {rule}");
    }
    let made = it.ask(1, env, Function::NewString, &[Value::list(2, true)])?;
    if let Verdict::Passed(ticket) = made {
        let string = it.met(1, string_class, 2)?;
        it.did(ticket, Says::Object(string))?;
    }
    Ok(())
}
