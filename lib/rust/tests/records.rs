//! Records of logs and streams, chunks, and the checks without a session.

mod common;

use common::{accept, acknowledge, chunked, example, offer, offers, record, refused, state, task};
use common::{BEAT, OWED, REVIVE, SUBSCRIBED, UPDATE};
use mesosev::{call, fits, log, version, write_chunk, write_event};
use mesosev::{Framing, Options, Session, SessionError};

fn number_of<T: std::fmt::Debug>(result: Result<T, SessionError>) -> u32 {
    match result {
        Err(SessionError::Fault(fault)) => fault.number,
        other => panic!("no fault: {other:?}"),
    }
}

/// Returns a JSON array.
fn array(items: &[String]) -> String {
    format!("[{}]", items.join(","))
}

#[test]
fn the_version_is_that_of_the_crate() {
    assert_eq!(version(), env!("CARGO_PKG_VERSION"));
}

#[test]
fn the_log_of_the_examples_leads_to_its_report() {
    let session = Session::replay(example("session.log")).unwrap();
    let (entries, connected, framework, offers, owed) = state(&session);
    assert_eq!(
        (entries, connected, framework.as_deref()),
        (13, true, Some("F1"))
    );
    for (offer, id) in offers.iter().zip(["O4", "O5"]) {
        assert!(
            offer.starts_with(&format!(r#"{{"id":{{"value":"{id}"}},"#)),
            "{offer}"
        );
    }
    let expected =
        r#"{"agent_id":{"value":"A1"},"task_id":{"value":"T1"},"uuid":"EBESExQVFhcYGRobHB0eHw=="}"#;
    assert_eq!((offers.len(), owed), (2, vec![expected.to_owned()]));
}

#[test]
fn records_lead_to_the_same_session() {
    let mut session = Session::new().unwrap();
    let mut file = log::header().unwrap();
    let list = offers(&[offer("O1", "A1"), offer("O2", "A1")]);
    for event in [SUBSCRIBED, &list, UPDATE] {
        session.heard(event).unwrap();
        file += &log::event(event).unwrap();
        assert_eq!(state(&Session::replay(&file).unwrap()), state(&session));
    }
    for text in [accept(&["O1"], &[task("T1", "A1", 1.0)]), acknowledge(OWED)] {
        file += &log::call(session.said(text).unwrap()).unwrap();
        assert_eq!(state(&Session::replay(&file).unwrap()), state(&session));
    }
    session.broken();
    file += &log::broken().unwrap();
    file += &log::call(session.subscribe(r#"{"user":"u","name":"n"}"#).unwrap()).unwrap();
    let mut again = Session::replay(file).unwrap();
    assert_eq!(state(&again), state(&session));
    // The replayed session continues.
    again.heard(SUBSCRIBED).unwrap();
    assert_eq!(again.said(REVIVE).unwrap(), REVIVE);
}

#[test]
fn records_have_canonical_texts() {
    assert_eq!(log::header().unwrap(), "1\n2");
    assert_eq!(log::broken().unwrap(), "1\nB");
    let event = r#" {"type" : "HEARTBEAT"}"#;
    assert_eq!(log::event(event).unwrap(), "21\nE{\"type\":\"HEARTBEAT\"}");
    assert_eq!(log::call(REVIVE).unwrap(), record(&format!("C{REVIVE}")));
    assert_eq!(write_event(event).unwrap(), BEAT);
    let large = SUBSCRIBED.replace("F1", &"\u{e9}".repeat(1_000_000));
    assert_eq!(log::event(&large).unwrap(), record(&format!("E{large}")));
    assert_eq!(write_event(&large).unwrap(), record(&large));
}

#[test]
fn texts_that_grow_are_returned_whole() {
    // A second is written as `1.0`, so that the canonical text is longer than the input and 4 KiB.
    let tasks = vec![task("T", "A", 1.0).replace("1.0", "1"); 10_000];
    let text = accept(&["O1"], &tasks);
    let canonical = text.replace(r#""value":1}"#, r#""value":1.0}"#);
    assert!(canonical.len() > text.len() + 10_000);
    assert_eq!(call(&text).unwrap(), canonical);
    assert_eq!(log::call(&text).unwrap(), record(&format!("C{canonical}")));
}

#[test]
fn faults_of_records_are_returned() {
    assert_eq!(number_of(log::event("")), 11);
    assert_eq!(number_of(log::event("{}")), 12);
    assert_eq!(number_of(log::call("{}")), 12);
    assert_eq!(number_of(write_event("[]")), 12);
    assert_eq!(number_of(call("{]")), 11);
    let error = call(r#"{"type":"REVIVE"}"#).unwrap_err();
    assert_eq!(
        error.to_string(),
        "fault F12 Field record 1 framework_id Missing after 17"
    );
}

#[test]
fn logs_with_a_fault_or_a_refused_call_lead_to_no_session() {
    let bytes = example("session.log");
    assert_eq!(number_of(Session::replay(&bytes[..bytes.len() - 1])), 10);
    assert_eq!(number_of(Session::replay("1\n2x")), 7);
    assert_eq!(number_of(Session::replay("1\n21\nx")), 16);
    assert_eq!(number_of(Session::replay("1\n22\nE{")), 11);
    assert_eq!(number_of(Session::replay("1\n23\nE{}")), 12);
    let file = log::header().unwrap() + &log::call(REVIVE).unwrap();
    let refusal = refused(Session::replay(file));
    assert_eq!((refusal.number, refusal.entry), (1, 1));
    // Without a record the log is of version 1, and leads to a new session.
    assert_eq!(Session::replay("").unwrap().entries(), 0);
}

#[test]
fn a_call_without_a_canonical_text_is_an_error() {
    // The largest canonical text has 67,108,864 bytes. Each string below is longer than its escape.
    let name = r"\u0001".repeat(11_184_000);
    let tasks = vec![task("T", "A", 1.0).replace("1.0", "1"); 5_000];
    let text = accept(&[&name], &tasks);
    assert_eq!(call(text), Err(SessionError::NoText));
}

#[test]
fn tasks_are_compared_with_offers() {
    let two = array(&[offer("O1", "A1"), offer("O2", "A1")]);
    let tasks = |amount| array(&[task("T1", "A1", 1.0), task("T2", "A1", amount)]);
    assert_eq!(fits(&two, tasks(1.0)), Ok(()));
    assert_eq!(fits("[]", "[]"), Ok(()));
    let refusal = refused(fits(&two, tasks(1.001)));
    assert_eq!(
        (refusal.number, refusal.name, refusal.entry),
        (6, "Exceeds", 1)
    );
    assert_eq!(
        (refusal.index, refusal.task, refusal.resource),
        (None, Some(0), Some(0))
    );
    for (offers, tasks, record) in [
        ("{", "[]", 1),
        ("[]", "[", 2),
        ("[{}]", "[{}]", 1),
        ("[]", "{}", 2),
    ] {
        match fits(offers, tasks) {
            Err(SessionError::Fault(fault)) => assert_eq!(fault.record, Some(record)),
            other => panic!("{other:?}"),
        }
    }
}

#[test]
fn chunks_make_a_body() {
    let stream = example("stream.recordio");
    let mut body = Vec::new();
    for chunk in stream.chunks(512) {
        body.extend(write_chunk(chunk).unwrap());
    }
    body.extend(write_chunk("").unwrap());
    let text = String::from_utf8(stream.clone()).unwrap();
    assert_eq!(body, chunked(&text, 512));
    let events = Options::new().framing(Framing::Chunked).events(&body[..]);
    assert_eq!(events.filter(Result::is_ok).count(), 13);
    // The bytes of a chunk need not be a text.
    let bytes: Vec<u8> = (0..=255).cycle().take(1_000_000).collect();
    let chunk = write_chunk(&bytes).unwrap();
    assert_eq!(chunk, [b"f4240\r\n", &bytes[..], b"\r\n"].concat());
}
