//! A tiny virtual machine with a core in front of it, and then a script that a guard answers. It is the twin of
//! `embed/c/example.c`, and prints the same.
//!
//! The machine keeps strings, which native code names by handles. It believes each handle that it is handed. What
//! stands in front of it asks the core before each call, lets the machine make it, and tells the core what it did.

use jg::{
    Bounds, Core, Environment, Error, Fact, Function, Given, Guard, Object, Reference, Says,
    Ticket, Value, Verdict,
};

const SETUP: &str = "version = 1\nillegal_native_access = \"deny\"\n";

/// The number of the machine's only thread.
const THREAD: u16 = 1;

/// A string of the machine; it has no text once the collector freed it.
struct Text {
    text: Option<String>,
    is_live: bool,
}

/// The machine. Handles count from 0, and none is given twice.
#[derive(Default)]
struct Machine {
    strings: Vec<Text>,
}

impl Machine {
    fn new_string(&mut self, text: &str) -> usize {
        self.strings.push(Text {
            text: Some(text.to_owned()),
            is_live: true,
        });
        self.strings.len() - 1
    }

    /// How long the string is. A machine of C would read freed memory where this panics.
    fn string_length(&self, handle: usize) -> usize {
        let text = self.strings[handle].text.as_ref();
        text.expect("the string was freed").len()
    }

    fn delete(&mut self, handle: usize) {
        self.strings[handle].is_live = false;
    }

    /// The handles of strings that no handle holds any more.
    fn garbage(&self) -> Vec<usize> {
        let is_garbage = |it: &Text| !it.is_live && it.text.is_some();
        let handles = 0..self.strings.len();
        handles
            .filter(|at| is_garbage(&self.strings[*at]))
            .collect()
    }
}

/// The machine with a core in front of it, and what the core calls each handle's reference and its object.
struct Guarded {
    machine: Machine,
    core: Core,
    string_class: u32,
    env: Environment,
    references: Vec<Reference>,
    objects: Vec<Object>,
}

/// The ticket of a call that breaks no rule. Of any other it says that it is denied, and why.
fn passed(function: Function, verdict: Verdict) -> Result<Option<Ticket>, Error> {
    match verdict {
        Verdict::Passed(ticket) => Ok(Some(ticket)),
        Verdict::Denied { rule, operand, .. } => {
            let place = operand.map_or(0, |it| it + 1);
            println!("{function}: deny {rule}, by operand {place}");
            println!("  rule: {}", rule.text()?);
            println!("  help: {}", rule.help()?);
            Ok(None)
        }
    }
}

impl Guarded {
    fn open() -> Result<Guarded, Error> {
        let mut core = Core::open(SETUP, Bounds::NONE)?;
        let string_class = core.class_named("java/lang/String")?;
        Ok(Guarded {
            machine: Machine::default(),
            string_class: string_class.expect("each setup states the class of strings"),
            env: core.begins(THREAD)?,
            core,
            references: Vec::new(),
            objects: Vec::new(),
        })
    }

    fn ask(&mut self, function: Function, operand: Value) -> Result<Option<Ticket>, Error> {
        let env = Some(self.env);
        let verdict = self.core.ask(THREAD, env, function, &[operand])?;
        passed(function, verdict)
    }

    /// NewStringUTF: ask, make, tell.
    fn new_string(&mut self, text: &str) -> Result<Option<usize>, Error> {
        let bytes = Value::list(text.len() as u64, true);
        let Some(ticket) = self.ask(Function::NewStringUTF, bytes)? else {
            return Ok(None);
        };
        let handle = self.machine.new_string(text);
        let object = self
            .core
            .met(THREAD, self.string_class, text.len() as u32)?;
        let Given::Reference(reference) = self.core.did(ticket, Says::Object(object))? else {
            panic!("a string has a reference");
        };
        println!("NewStringUTF: handle {handle} is {reference}");
        self.objects.push(object);
        self.references.push(reference);
        Ok(Some(handle))
    }

    /// GetStringLength: it implies no fact, so nothing is told. The core compares the length with what it was told.
    fn string_length(&mut self, handle: usize) -> Result<(), Error> {
        let reference = self.references[handle].into();
        if self.ask(Function::GetStringLength, reference)?.is_none() {
            return Ok(());
        }
        let length = self.machine.string_length(handle);
        self.core.tell(Fact::IsLength {
            thread: THREAD,
            object: self.objects[handle],
            length: length as u32,
        })?;
        println!("GetStringLength: {length}");
        Ok(())
    }

    /// DeleteLocalRef: what it ends is told with the question, before the machine ends it.
    fn delete(&mut self, handle: usize) -> Result<(), Error> {
        let (env, reference) = (Some(self.env), self.references[handle].into());
        let function = Function::DeleteLocalRef;
        let (verdict, _) = self.core.ending(THREAD, env, function, &[reference])?;
        if passed(function, verdict)?.is_some() {
            self.machine.delete(handle);
            println!("DeleteLocalRef: done");
        }
        Ok(())
    }

    /// The collector tells which objects it lets go, all at once, and frees their strings.
    fn collect(&mut self) -> Result<(), Error> {
        let garbage = self.machine.garbage();
        let objects: Vec<Object> = garbage.iter().map(|at| self.objects[*at]).collect();
        self.core.gone(&objects)?;
        for handle in garbage {
            self.machine.strings[handle].text = None;
        }
        println!("collected: {}", objects.len());
        Ok(())
    }
}

fn run_core() -> Result<(), Error> {
    let mut guarded = Guarded::open()?;
    let first = guarded.new_string("Hi")?.expect("a string may be made");
    guarded.string_length(first)?;
    guarded.delete(first)?;
    guarded.new_string("there")?;
    guarded.collect()?;
    guarded.string_length(first)?;
    print!("{}", guarded.core.leaks()?);
    Ok(())
}

const SCRIPT: [&str; 6] = [
    "T1 - AttachCurrentThread",
    "T1 E1.1 NewString [72,105]",
    "T1 E1.1 GetStringLength L1.1",
    "T1 E1.1 DeleteLocalRef L1.1",
    "T1 E1.1 GetStringLength L1.1",
    "T1 - DetachCurrentThread",
];

fn run_guard() -> Result<(), Error> {
    let mut guard = Guard::open(SETUP, 1000)?;
    for line in SCRIPT {
        print!("{}", guard.call_line(line)?);
    }
    print!("{}", guard.explain()?.unwrap_or_default());
    Ok(())
}

fn main() -> Result<(), Error> {
    run_core()?;
    println!();
    run_guard()
}
