//! The twin of `embed/c/words.c`: a tiny machine whose handles are used again, with a witness in front of it.

use jg::{Bounds, Environment, Error, Fact, Function, Given, Says, Value, Verdict, Witness};

const SETUP: &str = "version = 1\nillegal_native_access = \"deny\"\n";
const THREAD: u16 = 1;
const STRING: u32 = 2;
/// The address of the machine's first slot, and how far its slots are apart.
const FIRST: u64 = 0x7f80;
const STEP: u64 = 8;

/// The machine's strings, by their slots.
struct Machine {
    slots: Vec<Option<&'static str>>,
}

impl Machine {
    /// Puts the string into the first slot that is free.
    fn new_string(&mut self, text: &'static str) -> u64 {
        let slot = self
            .slots
            .iter()
            .position(Option::is_none)
            .unwrap_or(self.slots.len());
        self.slots.resize(self.slots.len().max(slot + 1), None);
        self.slots[slot] = Some(text);
        FIRST + STEP * slot as u64
    }

    fn delete(&mut self, handle: u64) {
        self.slots[slot_of(handle)] = None;
    }
}

fn slot_of(handle: u64) -> usize {
    ((handle - FIRST) / STEP) as usize
}

/// The machine with a witness in front of it, which keeps no names.
struct Guarded {
    machine: Machine,
    witness: Witness,
    env: Environment,
}

fn say(function: &str, handle: u64, verdict: &Verdict) {
    let slot = slot_of(handle);
    match verdict {
        Verdict::Passed(_) => println!("{function} of slot {slot}: passed"),
        Verdict::Denied { rule, operand, .. } => {
            let place = operand.map_or(0, |at| at + 1);
            println!("{function} of slot {slot}: deny {rule}, by operand {place}");
        }
    }
}

impl Guarded {
    fn open() -> Result<Guarded, Error> {
        let machine = Machine { slots: Vec::new() };
        let mut witness = Witness::open(SETUP, Bounds::NONE, 0)?;
        let Given::Environment(env) = witness.tell(Fact::Begins { thread: THREAD })? else {
            unreachable!("a session has an environment");
        };
        Ok(Guarded {
            machine,
            witness,
            env,
        })
    }

    /// `NewStringUTF`: ask, make, tell, with the handle that the machine answers.
    fn new_string(&mut self, text: &'static str) -> Result<u64, Error> {
        let bytes = [Value::list(text.len() as u64, true)];
        let asked = self
            .witness
            .ask(THREAD, Some(self.env), Function::NewStringUTF, &bytes)?;
        let Verdict::Passed(ticket) = asked else {
            unreachable!("a string is denied");
        };
        let handle = self.machine.new_string(text);
        let met = Fact::Met {
            thread: THREAD,
            class: STRING,
            length: text.len() as u32,
        };
        let Given::Object(object) = self.witness.tell(met)? else {
            unreachable!("an object has a number");
        };
        if let Given::Reference(name) = self.witness.did(ticket, Says::Object(object), handle)? {
            println!("NewStringUTF: slot {} is {name}", slot_of(handle));
        }
        Ok(handle)
    }

    /// `GetStringLength`, of which nothing is told.
    fn string_length(&mut self, handle: u64) -> Result<(), Error> {
        let word = [Value::word(handle)];
        let asked = self
            .witness
            .ask(THREAD, Some(self.env), Function::GetStringLength, &word)?;
        say("GetStringLength", handle, &asked);
        Ok(())
    }

    /// `DeleteLocalRef`: what it ends is told with the question, before the slot is free.
    fn delete_local(&mut self, handle: u64) -> Result<(), Error> {
        let word = [Value::word(handle)];
        let (asked, _) =
            self.witness
                .ending(THREAD, Some(self.env), Function::DeleteLocalRef, &word)?;
        say("DeleteLocalRef", handle, &asked);
        if asked.rule().is_none() {
            self.machine.delete(handle);
        }
        Ok(())
    }
}

fn main() -> Result<(), Error> {
    let mut guarded = Guarded::open()?;
    let first = guarded.new_string("Hi")?;
    guarded.string_length(first)?;
    guarded.delete_local(first)?;
    guarded.string_length(first)?;
    guarded.delete_local(first)?;
    let second = guarded.new_string("there")?;
    guarded.string_length(second)?;
    guarded.string_length(first)
}
