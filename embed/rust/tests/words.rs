//! A witness, asked by a machine's handles.

use jg::{
    Bounds, Environment, Error, Fact, Function, Given, Holder, Kind, Object, Reference, Rule, Says,
    Ticket, Value, Verdict, Witness,
};

const SETUP: &str = "version = 1\nillegal_native_access = \"deny\"\n";
const STRING: u32 = 2;
const WORD: u64 = 0x7f80;

/// A witness whose thread 1 is attached, and a string.
fn witnessed() -> Result<(Witness, Environment, Object), Error> {
    let mut witness = Witness::open(SETUP, Bounds::NONE, 0)?;
    let Given::Environment(env) = witness.tell(Fact::Begins { thread: 1 })? else {
        panic!("no environment is given");
    };
    let (thread, class, length) = (1, STRING, 5);
    let met = Fact::Met {
        thread,
        class,
        length,
    };
    let Given::Object(string) = witness.tell(met)? else {
        panic!("no object is given");
    };
    Ok((witness, env, string))
}

/// The ticket of a question that passes.
fn passed(verdict: Verdict) -> Ticket {
    match verdict {
        Verdict::Passed(ticket) => ticket,
        denied => panic!("{denied:?}"),
    }
}

#[test]
fn a_word_means_its_newest_reference() -> Result<(), Error> {
    let (mut witness, env, string) = witnessed()?;
    let operands = [Value::word(WORD)];
    assert_eq!((witness.meaning(WORD)?, witness.last(WORD)?), (None, None));
    let local = witness.hand(WORD, 1, Kind::Local, string)?;
    assert_eq!(local, Reference::local(1, 1));
    assert_eq!(witness.meaning(WORD)?, Some(local));
    let (deleted, given) = witness.ending(1, Some(env), Function::DeleteLocalRef, &operands)?;
    assert_eq!((deleted.rule(), given), (None, Given::Nothing));
    assert_eq!(witness.meaning(WORD)?, None);
    assert_eq!(witness.last(WORD)?, Some(local));
    let again = witness
        .ending(1, Some(env), Function::DeleteLocalRef, &operands)?
        .0;
    let Verdict::Denied { rule, operand, .. } = again else {
        panic!("a word is deleted twice");
    };
    assert_eq!((rule, operand), (Rule::DeadReference, Some(0)));
    let anew = witness.hand(WORD, 1, Kind::Local, string)?;
    assert_eq!(anew, Reference::local(1, 2));
    let length = witness.ask(1, Some(env), Function::GetStringLength, &operands)?;
    assert_eq!(length.rule(), None);
    witness.lapsed(WORD)?;
    assert_eq!(witness.meaning(WORD)?, None);
    Ok(())
}

#[test]
fn a_call_answers_a_word() -> Result<(), Error> {
    let (mut witness, env, string) = witnessed()?;
    witness.hand(WORD, 1, Kind::Local, string)?;
    let global = passed(witness.ask(1, Some(env), Function::NewGlobalRef, &[Value::word(WORD)])?);
    let given = witness.did(global, Says::Object(string), WORD + 8)?;
    let name = witness
        .meaning(WORD + 8)?
        .expect("the answered word means something");
    assert_eq!(given, Given::Reference(name));
    assert_eq!(name.to_string(), "G1.2");
    let place = 0;
    let held = witness.gone(&[string]);
    assert!(matches!(
        held,
        Err(Error::StillHeld {
            place: 0,
            by: Holder::Reference(_)
        })
    ));
    witness.tell(Fact::Ends { thread: 1 })?;
    assert_eq!(witness.meaning(WORD)?, None);
    assert_eq!(witness.meaning(WORD + 8)?, Some(name));
    witness.lapsed(WORD + 8)?;
    witness.gone(&[string])?;
    let by = Holder::Nothing;
    assert_eq!(witness.gone(&[string]), Err(Error::StillHeld { place, by }));
    Ok(())
}

#[test]
fn a_frame_that_is_popped_keeps_an_object() -> Result<(), Error> {
    let (mut witness, env, string) = witnessed()?;
    let (thread, room) = (1, 16);
    witness.tell(Fact::Pushed { thread, room })?;
    witness.hand(WORD, 1, Kind::Local, string)?;
    let (popped, given) =
        witness.ending(1, Some(env), Function::PopLocalFrame, &[Value::word(WORD)])?;
    assert_eq!(popped.rule(), None);
    assert_eq!(witness.meaning(WORD)?, None);
    let Given::Reference(kept) = given else {
        panic!("no reference is given");
    };
    witness.handed(WORD, kept)?;
    assert_eq!(witness.meaning(WORD)?, Some(kept));
    assert_eq!(
        witness.handed(WORD, Reference::local(1, 1)),
        Err(Error::Impossible)
    );
    assert_eq!(witness.meaning(WORD)?, None);
    Ok(())
}

#[test]
fn each_takes_its_own_alone() -> Result<(), Error> {
    let (mut witness, env, string) = witnessed()?;
    let (mut other, ..) = witnessed()?;
    let ticket = passed(witness.ask(
        1,
        Some(env),
        Function::NewStringUTF,
        &[Value::list(5, true)],
    )?);
    let untold = other
        .did(ticket, Says::Object(string), WORD)
        .expect_err("it is another's");
    assert_eq!(untold.error, Error::BadTicket);
    witness.did(untold.ticket, Says::Object(string), WORD)?;
    let mut core = jg::Core::open(SETUP, Bounds::NONE)?;
    let asked = core.may(1, None, Function::GetStringLength, &[Value::word(WORD)]);
    assert_eq!(asked, Err(Error::BadValue));
    let foreign = witness.ask(2, None, Function::GetStringLength, &[Value::word(WORD)])?;
    assert_eq!(foreign.rule(), Some(Rule::Detached));
    Ok(())
}
