//! The first path, by text and by facts.

use jg::{
    Bounds, Core, Environment, Error, Fact, Family, Function, Given, Guard, Holder, Kind,
    LineFault, Object, ObjectKind, Outcome, Reference, Rule, Says, SetupFault, Ticket, Untold,
    Value, Verdict,
};
use std::sync::{Mutex, MutexGuard};

const SETUP: &str = "version = 1\nillegal_native_access = \"deny\"\n";
const NATIVES: &str = "version = 1
illegal_native_access = \"deny\"
[[class]]
name = \"app/Main\"
module = \"app\"
natives = [{ name = \"run\", type = \"()V\" }]
";
const STRING: u32 = 2;
const INTS: u32 = 8;

const FIRST_PATH: [(&str, &str); 6] = [
    ("T1 - AttachCurrentThread", "E1.1"),
    ("T1 E1.1 NewString [72,105]", "L1.1"),
    ("T1 E1.1 GetStringLength L1.1", "2"),
    ("T1 E1.1 DeleteLocalRef L1.1", "ok"),
    ("T1 E1.1 GetStringLength L1.1", "deny 6 DeadReference"),
    ("T1 - DetachCurrentThread", "ok"),
];

#[test]
fn a_guard_answers_the_first_path() -> Result<(), Error> {
    let mut guard = Guard::open(SETUP, 6)?;
    assert_eq!(guard.explain()?, None);
    assert_eq!(guard.newest_line()?, "");
    for (line, outcome) in FIRST_PATH {
        let rule = guard.judge_line(line)?;
        assert_eq!(guard.call_line(line)?, format!("{line} = {outcome}\n"));
        assert_eq!(rule.is_some(), outcome.starts_with("deny"));
    }
    let why = guard.explain()?.expect("a call was denied");
    assert!(
        why.starts_with("line 5: deny 6 DeadReference of L1.1"),
        "{why}"
    );
    assert_eq!(guard.leaks()?, "");
    assert_eq!(guard.call_line("T1 - GetEnv"), Err(Error::Limit));
    assert_eq!(guard.newest_line()?, "T1 - DetachCurrentThread = ok\n");
    Ok(())
}

#[test]
fn a_guard_tells_outcomes() -> Result<(), Error> {
    let mut guard = Guard::open(SETUP, 6)?;
    let outcomes = FIRST_PATH
        .into_iter()
        .map(|(line, _)| Ok(guard.call(line)?.outcome))
        .collect::<Result<Vec<Outcome>, Error>>()?;
    let local = Reference::local(1, 1);
    let (thread, session) = (1, 1);
    assert_eq!(
        outcomes,
        [
            Outcome::Environment(Environment { thread, session }),
            Outcome::Reference(local),
            Outcome::Number(2),
            Outcome::Done,
            Outcome::Denied(Rule::DeadReference),
            Outcome::Done,
        ]
    );
    Ok(())
}

#[test]
fn a_faulty_line_and_a_faulty_setup_are_refused() -> Result<(), Error> {
    let mut guard = Guard::open(SETUP, 10)?;
    let fly = guard.call_line("T1 - Fly");
    assert_eq!(fly, Err(Error::Line(LineFault::UnknownFunction)));
    let faulty = Guard::open("version", 10).err();
    assert_eq!(faulty, Some(Error::Setup(SetupFault::NotToml)));
    let place = jg::setup_fault("version")?.expect("the setup is faulty");
    assert!(place.starts_with("line 1, column 8: "), "{place}");
    assert_eq!(jg::setup_fault(SETUP)?, None);
    let long = " ".repeat(16_777_217);
    let faulty = Core::open(&long, Bounds::NONE).err();
    assert_eq!(faulty, Some(Error::Setup(SetupFault::TooMany)));
    let place = jg::setup_fault(&long)?;
    assert_eq!(place.as_deref(), Some("more than 16777216 bytes"));
    Ok(())
}

#[test]
fn a_core_is_told_the_first_path() -> Result<(), Error> {
    let mut core = Core::open(SETUP, Bounds::NONE)?;
    let Verdict::Passed(attach) = core.ask(1, None, Function::AttachCurrentThread, &[])? else {
        panic!("an attachment is denied");
    };
    let Given::Environment(env) = core.did(attach, Says::Done)? else {
        panic!("no environment is given");
    };
    let list = [Value::list(2, true)];
    let Verdict::Passed(ticket) = core.ask(1, Some(env), Function::NewString, &list)? else {
        panic!("a string is denied");
    };
    let object = core.met(1, STRING, 2)?;
    assert_eq!(
        told_line(&mut core, &ticket, Says::Object(object))?,
        "T1 got local O15"
    );
    let Given::Reference(local) = core.did(ticket, Says::Object(object))? else {
        panic!("no reference is given");
    };
    assert_eq!(
        (env.to_string(), local.to_string()),
        ("E1.1".into(), "L1.1".into())
    );
    let (deleted, _) = core.ending(1, Some(env), Function::DeleteLocalRef, &[local.into()])?;
    let Verdict::Passed(ticket) = deleted else {
        panic!("a deletion is denied");
    };
    let line = told_line(&mut core, &ticket, Says::Done)?;
    assert!(line.ends_with(" lost L1.1"), "{line}");
    let again = core.ask(1, Some(env), Function::GetStringLength, &[local.into()])?;
    let Verdict::Denied { rule, operand, ticket } = again else {
        panic!("a dead reference is used");
    };
    assert_eq!((rule, operand), (Rule::DeadReference, Some(0)));
    assert_eq!((ticket.is_in_doubt(), ticket.told(Says::Done)?), (false, None));
    assert_eq!(core.gone_line(0, &[object])?, "T0 gone O15");
    core.gone(&[object])?;
    let (place, by) = (0, Holder::Nothing);
    assert_eq!(core.gone(&[object]), Err(Error::StillHeld { place, by }));
    assert_eq!(core.leaks()?, "");
    Ok(())
}

/// The line of a record of the fact that is told by the ticket.
fn told_line(core: &mut Core, ticket: &Ticket, says: Says) -> Result<String, Error> {
    let fact = ticket.told(says)?.expect("a fact is told");
    core.fact_line(fact)
}

#[test]
fn the_text_of_embedding_md_is_right() -> Result<(), Error> {
    let setup = "version = 1\nillegal_native_access = \"deny\"\n";
    let mut core = Core::open(setup, Bounds::NONE)?;
    let env = core.begins(1)?;
    let string = core.met(1, 2, 5)?;
    let local = core.got(1, Kind::Local, string)?;
    let (deleted, _) = core.ending(1, Some(env), Function::DeleteLocalRef, &[local.into()])?;
    assert_eq!(deleted.rule(), None);
    let verdict = core.ask(1, Some(env), Function::GetStringLength, &[local.into()])?;
    assert_eq!(verdict.rule(), Some(Rule::DeadReference));
    Ok(())
}

#[test]
fn a_ticket_holds_what_the_operand_named() -> Result<(), Error> {
    let mut core = Core::open(SETUP, Bounds::NONE)?;
    let env = core.begins(1)?;
    let object = core.met(1, STRING, 2)?;
    let local = core.got(1, Kind::Local, object)?;
    let enter = core.ask(1, Some(env), Function::MonitorEnter, &[local.into()])?;
    let Verdict::Passed(ticket) = enter else {
        panic!("an entry is denied");
    };
    // While the machine waits for the monitor, a callee ends the reference.
    let (deleted, _) = core.ending(1, Some(env), Function::DeleteLocalRef, &[local.into()])?;
    assert_eq!(deleted.rule(), None);
    let thread = 1;
    assert_eq!(
        ticket.told(Says::Done)?,
        Some(Fact::Owns { thread, object })
    );
    assert_eq!(core.did(ticket, Says::Done)?, Given::Nothing);
    assert_eq!(core.leaks()?, format!("leak M{} T1 1\n", object.0));
    Ok(())
}

#[test]
fn a_ticket_comes_back_where_nothing_is_told() -> Result<(), Error> {
    let mut core = Core::open(SETUP, Bounds::NONE)?;
    let env = core.begins(1)?;
    let list = [Value::list(2, true)];
    let Verdict::Passed(ticket) = core.ask(1, Some(env), Function::NewString, &list)? else {
        panic!("a string is denied");
    };
    // The string wasn't met yet.
    let unmet = Says::Object(Object(1000));
    let Err(untold) = core.did(ticket, unmet) else {
        panic!("an object is handed out that isn't there");
    };
    assert_eq!(untold.error, Error::Impossible);
    assert_eq!(untold.to_string(), Error::Impossible.to_string());
    let object = core.met(1, STRING, 2)?;
    let Untold { ticket, .. } = untold;
    let Given::Reference(local) = core.did(ticket, Says::Object(object))? else {
        panic!("no reference is given");
    };
    assert_eq!(local.to_string(), "L1.1");
    Ok(())
}

#[test]
fn a_call_is_told_once_and_to_its_core() -> Result<(), Error> {
    let mut core = Core::open(SETUP, Bounds::NONE)?;
    let mut other = Core::open(SETUP, Bounds::NONE)?;
    let env = core.begins(1)?;
    other.begins(1)?;
    let Verdict::Passed(ticket) = core.ask(1, Some(env), Function::ExceptionCheck, &[])? else {
        panic!("a check is denied");
    };
    let Err(untold) = other.did(ticket, Says::Done) else {
        panic!("another core takes the ticket");
    };
    assert_eq!(untold.error, Error::BadTicket);
    assert_eq!(core.did(untold.ticket, Says::Done)?, Given::Nothing);
    let (ended, _) = core.ending(1, Some(env), Function::ExceptionClear, &[])?;
    let Verdict::Passed(ticket) = ended else {
        panic!("a pending exception can't be cleared");
    };
    assert_eq!(ticket.told(Says::Done)?, Some(Fact::Calmed { thread: 1 }));
    let untold = core.did(ticket, Says::Done).err().map(Error::from);
    assert_eq!(untold, Some(Error::BadTicket));
    Ok(())
}

#[test]
fn what_cant_be_thrown_is_thrown_by_no_machine() -> Result<(), Error> {
    let mut core = Core::open(SETUP, Bounds::NONE)?;
    let env = core.begins(1)?;
    let Verdict::Passed(ticket) = core.ask(1, Some(env), Function::ExceptionCheck, &[])? else {
        panic!("a check is denied");
    };
    let string = core.met(1, STRING, 2)?;
    let Err(untold) = core.did(ticket, Says::Threw(string)) else {
        panic!("a string is thrown");
    };
    assert_eq!(untold.error, Error::Impossible);
    let throwable = core.class_of(ObjectKind::Throwable)?;
    let thrown = core.met(1, throwable, 0)?;
    assert_eq!(core.did(untold.ticket, Says::Threw(thrown))?, Given::Nothing);
    let object = Some(thrown);
    core.tell(Fact::IsPending { thread: 1, object })?;
    Ok(())
}

#[test]
fn threads_share_a_core_by_a_mutex() -> Result<(), Error> {
    let core = Mutex::new(Core::open(SETUP, Bounds::NONE)?);
    let object = lock(&core).met(0, STRING, 2)?;
    lock(&core).begins(9)?;
    let global = lock(&core).got(9, Kind::Global, object)?;
    let deletes = |thread| -> Result<Option<Rule>, Error> {
        let env = Some(lock(&core).begins(thread)?);
        let ended = lock(&core).ending(thread, env, Function::DeleteGlobalRef, &[global.into()])?;
        Ok(ended.0.rule())
    };
    let mut rules = std::thread::scope(|scope| {
        let begun = [1, 2, 3, 4].map(|thread| scope.spawn(move || deletes(thread)));
        begun.map(|it| it.join().expect("a thread ends"))
    });
    rules.sort_by_key(|it| it.as_ref().is_ok_and(Option::is_some));
    let denied = Ok(Some(Rule::DeadReference));
    assert_eq!(rules, [Ok(None), denied, denied, denied]);
    Ok(())
}

fn lock(core: &Mutex<Core>) -> MutexGuard<'_, Core> {
    core.lock().expect("no thread panics")
}

#[test]
fn what_no_machine_says_is_refused_and_no_fact_is_none() -> Result<(), Error> {
    let mut core = Core::open(SETUP, Bounds::NONE)?;
    let env = core.begins(1)?;
    let Verdict::Passed(ticket) = core.ask(1, Some(env), Function::ExceptionCheck, &[])? else {
        panic!("a check is denied");
    };
    assert_eq!(ticket.told(Says::Done)?, None);
    assert_eq!(
        ticket.told(Says::Object(Object(15))),
        Err(Error::Impossible)
    );
    Ok(())
}

#[test]
fn of_some_calls_nothing_is_told() -> Result<(), Error> {
    let mut core = Core::open(SETUP, Bounds::NONE)?;
    let env = core.begins(1)?;
    let object = core.met(1, STRING, 2)?;
    let local = Value::from(core.got(1, Kind::Local, object)?);
    let operands = [local, Value::id(true)];
    let calls = [
        (Function::GetStringLength, &operands[..1], Says::Done),
        (Function::CallIntMethod, &operands[..], Says::Done),
        (Function::GetObjectField, &operands[..], Says::Null),
    ];
    for (function, operands, says) in calls {
        let Verdict::Passed(ticket) = core.ask(1, Some(env), function, operands)? else {
            panic!("{function} is denied");
        };
        assert_eq!(ticket.told(says)?, None, "{function}");
        assert_eq!(ticket.tells(), says == Says::Null, "{function}");
        let rule = core.may(1, Some(env), function, operands)?;
        assert_eq!(rule, None, "{function}");
        let thread = 1;
        let raised = Fact::Raised { thread, object };
        assert_eq!(ticket.told(Says::Threw(object))?, Some(raised));
        assert_eq!(core.did(ticket, says)?, Given::Nothing);
    }
    Ok(())
}

#[test]
fn classes_and_native_methods_have_numbers() -> Result<(), Error> {
    let mut core = Core::open(NATIVES, Bounds::NONE)?;
    assert_eq!(core.class_named("java/lang/String")?, Some(STRING));
    assert_eq!(core.class_named("app/Main")?, Some(15));
    assert_eq!(core.class_named("app.Main")?, None);
    assert_eq!(core.native_named(15, "run", "()V")?, Some(1));
    assert_eq!(core.native_named(15, "run()V", "")?, None);
    assert_eq!(core.class_of(ObjectKind::Object)?, 16);
    let array = core.class_of(ObjectKind::Objects)?;
    assert_eq!(core.class_named("[Ljava/lang/Object;")?, Some(array));
    Ok(())
}

#[test]
fn a_core_writes_lines_of_a_record() -> Result<(), Error> {
    let mut core = Core::open(SETUP, Bounds::NONE)?;
    assert_eq!(
        core.bounds_line()?,
        "T0 bounds 2147483647 2147483647 2147483647"
    );
    let env = core.begins(7)?;
    let object = core.met(0, STRING, 5)?;
    let kind = Kind::Global;
    let got = Fact::Got {
        thread: 7,
        kind,
        object,
    };
    assert_eq!(core.fact_line(got)?, format!("T7 got global {object}"));
    let global = core.got(7, kind, object)?;
    let line = core.question_line(7, Some(env), Function::GetStringLength, &[global.into()])?;
    assert_eq!(line, "T7 E7.1 GetStringLength G7.1");
    assert_eq!(core.leaks()?, "leak G7.1\n");
    Ok(())
}

#[test]
fn a_fact_that_can_t_be_is_refused() -> Result<(), Error> {
    let mut core = Core::open(SETUP, Bounds::NONE)?;
    assert_eq!(core.tell(Fact::Ends { thread: 1 }), Err(Error::Impossible));
    core.begins(1)?;
    assert_eq!(core.begins(1), Err(Error::Impossible));
    let few = core.ask(1, None, Function::GetStringLength, &[]);
    assert_eq!(few, Err(Error::Misfit));
    Ok(())
}

#[test]
fn facts_give_names() -> Result<(), Error> {
    let mut core = Core::open(SETUP, Bounds::NONE)?;
    core.begins(1)?;
    let array = core.met(1, INTS, 9)?;
    let local = core.got(1, Kind::Local, array)?;
    let buffer = core.lent(1, Family::Critical, array, local, 9)?;
    assert_eq!(core.leaks()?, "leak L1.1\nleak B1.1\n");
    core.tell(Fact::Gave { thread: 1, buffer })?;
    core.tell(Fact::Enters { thread: 1 })?;
    core.tell(Fact::Pushed { thread: 1, room: 4 })?;
    let kept = core.popped(1, Some(array))?.map(|it| it.to_string());
    assert_eq!(kept.as_deref(), Some("L1.2"));
    assert_eq!(core.leaves(1, None)?, None);
    let floats = core.class_of(ObjectKind::Floats)?;
    let float = core.met(1, floats, 3)?;
    core.tell(Fact::IsLength {
        thread: 1,
        object: float,
        length: 3,
    })?;
    Ok(())
}

#[test]
fn arrays_of_references_are_met_by_their_kind() -> Result<(), Error> {
    let mut core = Core::open(SETUP, Bounds::NONE)?;
    let env = core.begins(1)?;
    let rules = [ObjectKind::Objects, ObjectKind::Object].map(|kind| {
        let class = core.class_of(kind)?;
        let array = core.met(1, class, 3)?;
        let local = core.got(1, Kind::Local, array)?;
        core.may(1, Some(env), Function::GetArrayLength, &[local.into()])
    });
    assert_eq!(rules, [Ok(None), Ok(Some(Rule::WrongType))]);
    Ok(())
}

#[test]
fn a_string_has_as_many_items_as_a_jsize_counts() -> Result<(), Error> {
    let mut core = Core::open(SETUP, Bounds::NONE)?;
    let env = Some(core.begins(1)?);
    let most = i32::MAX as u64;
    let negative = i64::from(-1i32) as u64;
    for (count, rule) in [
        (most, None),
        (most + 1, Some(Rule::BadArgument)),
        (negative, Some(Rule::BadArgument)),
    ] {
        let list = [Value::list(count, true)];
        assert_eq!(core.may(1, env, Function::NewString, &list)?, rule);
        assert_eq!(core.ask(1, env, Function::NewString, &list)?.rule(), rule);
        assert_eq!(core.may(1, env, Function::NewStringUTF, &list)?, None);
    }
    assert_eq!(core.may(1, env, Function::NewString, &[]), Err(Error::Misfit));
    Ok(())
}

#[test]
fn what_is_held_is_told_with_its_holder() -> Result<(), Error> {
    let mut core = Core::open(SETUP, Bounds::NONE)?;
    core.begins(1)?;
    let array = core.met(1, INTS, 9)?;
    let thrown = core.met(1, STRING, 0)?;
    let gone = |core: &mut Core, objects: &[Object]| core.gone(objects).err();
    let held = |place, by| Some(Error::StillHeld { place, by });
    assert_eq!(gone(&mut core, &[array, Object(2)]), held(1, Holder::Setup));
    assert_eq!(gone(&mut core, &[array, array]), held(1, Holder::Nothing));
    let local = core.got(1, Kind::Local, array)?;
    assert_eq!(gone(&mut core, &[thrown, array]), held(1, Holder::Reference(local)));
    let buffer = core.lent(1, Family::Critical, array, local, 9)?;
    core.tell(Fact::Lost { thread: 1, reference: local })?;
    assert_eq!(gone(&mut core, &[array]), held(0, Holder::Buffer(buffer)));
    core.tell(Fact::Gave { thread: 1, buffer })?;
    core.tell(Fact::Owns { thread: 1, object: array })?;
    assert_eq!(gone(&mut core, &[array]), held(0, Holder::Monitor(1)));
    core.tell(Fact::Freed { thread: 1, object: array })?;
    core.tell(Fact::Raised { thread: 1, object: thrown })?;
    assert_eq!(gone(&mut core, &[array, thrown]), held(1, Holder::Pending(1)));
    core.tell(Fact::Calmed { thread: 1 })?;
    assert_eq!(gone(&mut core, &[array, thrown]), None);
    Ok(())
}

#[test]
fn a_core_goes_to_another_thread() -> Result<(), Error> {
    let mut core = Core::open(SETUP, Bounds::NONE)?;
    core.begins(1)?;
    let joined = std::thread::spawn(move || core.begins(2)).join();
    assert_eq!(joined.expect("the thread ends")?.to_string(), "E2.1");
    Ok(())
}

#[test]
fn rules_have_names_and_texts() -> Result<(), Error> {
    for (number, rule) in (1..).zip(Rule::ALL) {
        assert_eq!(
            (rule.number(), Rule::of_number(number)),
            (number, Some(*rule))
        );
        assert_eq!(rule.to_string(), format!("{number} {}", rule.name()));
        assert!(!rule.text()?.is_empty() && !rule.help()?.is_empty());
    }
    assert_eq!(Rule::of_number(18), None);
    Ok(())
}

#[test]
fn modified_utf8_is_told_from_other_bytes() -> Result<(), Error> {
    for text in ["", "text", "\u{80}", "\u{FFFF}"] {
        assert!(jg::is_utf8(text)?, "{text:?}");
    }
    for bytes in [b"\0".as_slice(), b"\xC1\x81", b"\xE0\xA0", "\u{10000}".as_bytes()] {
        assert!(!jg::is_utf8(bytes)?, "{bytes:?}");
    }
    Ok(())
}

#[test]
fn functions_have_names_and_numbers() {
    for (number, function) in (0..).zip(Function::ALL) {
        assert_eq!(function.number(), number);
        assert_eq!(Function::of_name(function.name()), Some(*function));
        assert_eq!(Function::of_number(number), Some(*function));
    }
    assert_eq!(Function::GetVersion.number(), 0);
    assert_eq!(Function::of_name("Fly"), None);
    assert_eq!(Function::of_number(u32::MAX), None);
}
