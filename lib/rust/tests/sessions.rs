//! Sessions: each refusal, faults, getters, long texts, and threads.

mod common;

use common::{accept, acknowledge, offer, offers, refused, state, subscribed, task};
use common::{OWED, REVIVE, SUBSCRIBED, UPDATE};
use mesosev::{Place, Session, SessionError};
use std::slice;
use std::sync::Mutex;
use std::thread;

const INFO: &str = r#"{"user":"root","name":"n"}"#;

#[test]
fn a_new_session_has_nothing() {
    let session = Session::new().unwrap();
    assert_eq!(state(&session), (0, false, None, Vec::new(), Vec::new()));
    assert_eq!(session.offer_at(0), Err(SessionError::Absent));
    assert_eq!(session.offer("O1"), Err(SessionError::Absent));
    assert_eq!(session.owed_at(0), Err(SessionError::Absent));
}

#[test]
fn the_getters_return_what_was_heard() {
    let session = subscribed();
    let list = vec![offer("O1", "A1"), offer("O2", "A1"), offer("O3", "A2")];
    let owed = vec![OWED.to_owned()];
    assert_eq!(
        state(&session),
        (3, true, Some("F1".to_owned()), list, owed)
    );
    assert_eq!((session.offer_count(), session.owed_count()), (3, 1));
    assert_eq!(
        (session.offers().len(), session.unacknowledged().len()),
        (3, 1)
    );
    assert_eq!(session.offer("O3").unwrap(), offer("O3", "A2"));
    assert_eq!(session.offer_at(2).unwrap(), offer("O3", "A2"));
    assert_eq!(session.offer("O4"), Err(SessionError::Absent));
    assert_eq!(session.offer_at(3), Err(SessionError::Absent));
    assert_eq!(session.offer_at(usize::MAX), Err(SessionError::Absent));
    assert_eq!(session.owed_at(1), Err(SessionError::Absent));
}

#[test]
fn an_update_is_acknowledged_by_its_index() {
    let mut session = subscribed();
    session.heard(UPDATE.replace("T1", "T2")).unwrap();
    assert_eq!(session.acknowledge(2), Err(SessionError::Absent));
    let call = session.acknowledge(1).unwrap();
    assert_eq!(mesosev::call(&call).unwrap(), call);
    let body = OWED.replace("T1", "T2");
    assert!(call.contains("\"ACKNOWLEDGE\"") && call.contains(&body));
    assert_eq!((session.owed_count(), session.entries()), (1, 5));
    session.broken();
    let refused = session.acknowledge(0).unwrap_err();
    assert_eq!(refused.to_string(), "refused S1 NotSubscribed record 7");
    assert_eq!((session.owed_count(), session.entries()), (1, 6));
}

#[test]
fn a_call_that_is_allowed_is_applied() {
    let mut session = subscribed();
    let call = accept(&["O1"], &[task("T1", "A1", 1.0)]);
    let before = state(&session);
    assert_eq!(session.check(&call).unwrap(), call);
    assert_eq!(state(&session), before);
    // The text need not be canonical, but the result is.
    assert_eq!(
        session
            .said(format!(" {} ", call.replace("1.0", "1e0")))
            .unwrap(),
        call
    );
    assert_eq!(
        (session.offer_count(), session.offer("O1")),
        (2, Err(SessionError::Absent))
    );
    assert_eq!(
        session.said(acknowledge(OWED).as_bytes()).unwrap(),
        acknowledge(OWED)
    );
    assert_eq!((session.owed_count(), session.entries()), (0, 5));
}

#[test]
fn each_refusal_has_its_line_and_changes_nothing() {
    let one = |id, agent| task(id, agent, 1.0);
    let (two_agents, twice) = (
        [one("T1", "A1"), one("T2", "A2")],
        [one("T1", "A1"), one("T1", "A1")],
    );
    let cases = [
        ("S1 NotSubscribed record 4", REVIVE.replace("F1", "F2")),
        ("S2 NamedTwice record 4", accept(&["O1", "O1"], &[])),
        ("S2 NamedTwice record 4", accept(&["O1"], &twice)),
        (
            "S3 NoSuchOffer record 4 index 1",
            accept(&["O1", "O9"], &[]),
        ),
        ("S4 TwoAgents record 4", accept(&["O1", "O3"], &[])),
        (
            "S5 WrongAgent record 4 task 1",
            accept(&["O1"], &two_agents),
        ),
        (
            "S6 Exceeds record 4 task 0 resource 0",
            accept(&["O1"], &[task("T1", "A1", 1.001)]),
        ),
        (
            "S7 NotOwed record 4",
            acknowledge(&OWED.replace("T1", "T2")),
        ),
    ];
    let mut session = subscribed();
    let before = state(&session);
    for (line, call) in cases {
        let refusal = refused(session.said(&call));
        assert_eq!(refusal.line(), format!("refused {line}"));
        let start = format!(
            "S{} {} record {}",
            refusal.number, refusal.name, refusal.entry
        );
        assert!(
            line.starts_with(&start),
            "{line} does not start with {start}"
        );
        assert_eq!(refused(session.check(&call)), refusal);
        assert_eq!(state(&session), before);
    }
}

#[test]
fn refusals_have_the_places_of_what_is_refused() {
    let session = subscribed();
    let places = |call| {
        let refusal = refused(session.check(call));
        (refusal.index, refusal.task, refusal.resource)
    };
    let (small, large) = (task("T1", "A1", 0.5), task("T2", "A2", 5.0));
    assert_eq!(
        places(accept(&["O1", "O2", "O9"], &[])),
        (Some(2), None, None)
    );
    assert_eq!(
        places(accept(&["O1"], &[small, large.clone()])),
        (None, Some(1), None)
    );
    let large = large
        .replace("A2", "A1")
        .replace("[{", r#"[{"name":"a","type":"SET","set":{}},{"#);
    assert_eq!(places(accept(&["O1"], &[large])), (None, Some(0), Some(1)));
    assert_eq!(places(accept(&["O1", "O3"], &[])), (None, None, None));
}

#[test]
fn calls_before_a_subscription_are_refused() {
    let mut session = Session::new().unwrap();
    let refusal = refused(session.said(REVIVE));
    assert_eq!(
        (refusal.number, refusal.to_string().as_str()),
        (1, "refused S1 NotSubscribed record 1")
    );
}

#[test]
fn texts_that_are_no_event_or_call_are_faults() {
    let mut session = subscribed();
    let before = state(&session);
    let fault = |result| match result {
        Err(SessionError::Fault(fault)) => fault,
        other => panic!("{other:?}"),
    };
    let found = fault(session.heard("{").map(|()| String::new()));
    assert_eq!(
        found.to_string(),
        "fault F11 Text record 1 byte 1 End after 1"
    );
    assert_eq!(
        (found.number, found.place.as_ref()),
        (11, Some(&Place::Byte(1)))
    );
    let found = fault(
        session
            .heard(r#"{"type":"OFFERS"}"#)
            .map(|()| String::new()),
    );
    assert_eq!(
        found.to_string(),
        "fault F12 Field record 1 offers Missing after 17"
    );
    let found = fault(session.said(REVIVE.replace("REVIVE", "NONE")));
    assert_eq!((found.number, found.why.as_deref()), (12, Some("LeftOut")));
    assert_eq!(fault(session.check(b"\xff")).number, 11);
    assert_eq!(fault(session.subscribe("")).number, 11);
    let found = fault(session.subscribe(r#"{"user":1}"#));
    assert_eq!(
        found.to_string(),
        "fault F12 Field record 1 user WrongKind after 10"
    );
    assert_eq!(state(&session), before);
}

#[test]
fn a_broken_stream_leaves_no_offer() {
    let mut session = subscribed();
    session.broken();
    let owed = vec![OWED.to_owned()];
    assert_eq!(
        state(&session),
        (4, false, Some("F1".to_owned()), Vec::new(), owed)
    );
    let refusal = refused(session.said(REVIVE));
    assert_eq!((refusal.number, refusal.entry), (1, 5));
    let call = session.subscribe(INFO).unwrap();
    assert!(
        call.starts_with(r#"{"type":"SUBSCRIBE","framework_id":{"value":"F1"},"#),
        "{call}"
    );
    session.heard(SUBSCRIBED).unwrap();
    assert_eq!(session.said(REVIVE).unwrap(), REVIVE);
    assert_eq!((session.entries(), session.connected()), (7, true));
}

#[test]
fn a_subscribe_names_the_framework_of_the_session() {
    let mut session = Session::new().unwrap();
    let first = r#"{"type":"SUBSCRIBE","subscribe":{"framework_info":{"user":"root","name":"n"}}}"#;
    assert_eq!(session.subscribe(INFO).unwrap(), first);
    assert_eq!((session.entries(), session.connected()), (1, false));
    session.heard(SUBSCRIBED).unwrap();
    let second = session.subscribe(INFO).unwrap();
    let other = INFO.replace('}', r#","id":{"value":"F2"}}"#);
    assert_eq!(session.subscribe(other).unwrap(), second);
    let id = r#""framework_id":{"value":"F1"}"#;
    assert!(second.contains(id) && !second.contains("F2"), "{second}");
    let refusal = refused(session.said(second.replace("F1", "F2")));
    assert_eq!((refusal.number, refusal.entry), (1, 5));
}

#[test]
fn texts_of_all_sizes_are_returned_whole() {
    // The buffer of a session has 4,096 bytes at first. The texts are just below, at and above it.
    for size in [3_800, 3_900, 4_000, 4_095, 4_096, 4_097, 100_000, 3_000_000] {
        let (mut session, name) = (Session::new().unwrap(), "\u{e9}".repeat(size / 2));
        let large = offer(&name, "A1");
        session.heard(SUBSCRIBED.replace("F1", &name)).unwrap();
        session.heard(offers(slice::from_ref(&large))).unwrap();
        session.heard(UPDATE.replace("T1", &name)).unwrap();
        assert_eq!(session.framework().as_deref(), Some(name.as_str()));
        assert_eq!(session.offer(&name).unwrap(), large);
        assert_eq!(session.offer_at(0).unwrap(), large);
        assert_eq!(session.owed_at(0).unwrap(), OWED.replace("T1", &name));
        let call = accept(&[&name], &[task("T1", "A1", 1.0)]).replace("F1", &name);
        assert_eq!(session.check(&call).unwrap(), call);
        assert_eq!(session.said(&call).unwrap(), call);
        // The first of the two calls above grew the buffer; a larger text grows it in `said`.
        let longer = REVIVE.replace("F1", &name).replace("REVIVE", "SUPPRESS");
        assert_eq!(
            (session.said(&longer).unwrap(), session.entries()),
            (longer, 5)
        );
    }
}

#[test]
fn a_call_is_applied_once_although_the_buffer_grows() {
    let mut session = Session::new().unwrap();
    session.heard(SUBSCRIBED).unwrap();
    let names: Vec<_> = (0..1_000).map(|number| format!("O{number}")).collect();
    let list: Vec<_> = names.iter().map(|name| offer(name, "A1")).collect();
    session.heard(offers(&list)).unwrap();
    let names: Vec<_> = names.iter().map(String::as_str).collect();
    let call = accept(&names, &[]);
    assert!(call.len() > 10_000);
    assert_eq!(
        session.said(&call).unwrap().len(),
        call.replace(r#""task_infos":[]"#, "").len()
    );
    assert_eq!((session.entries(), session.offer_count()), (3, 0));
}

#[test]
fn a_session_moves_to_another_thread_and_back() {
    let mut session = subscribed();
    let mut session = thread::spawn(move || {
        session.said(acknowledge(OWED)).unwrap();
        session
    })
    .join()
    .unwrap();
    assert_eq!((session.owed_count(), session.entries()), (0, 4));
    session.broken();
    thread::spawn(move || drop(session)).join().unwrap();
}

#[test]
fn a_session_in_a_mutex_is_shared_by_threads() {
    let session = Mutex::new(subscribed());
    thread::scope(|scope| {
        for _ in 0..4 {
            scope.spawn(|| {
                for _ in 0..100 {
                    session.lock().unwrap().said(REVIVE).unwrap();
                }
            });
        }
    });
    assert_eq!(session.lock().unwrap().entries(), 403);
}

#[test]
fn a_thousand_sessions_are_open_at_once() {
    let mut sessions: Vec<_> = (0..1_000).map(|_| subscribed()).collect();
    for (number, session) in sessions.iter_mut().enumerate() {
        if number % 2 == 0 {
            session.said(accept(&["O1", "O2"], &[])).unwrap();
        }
    }
    let left: usize = sessions.iter().map(Session::offer_count).sum();
    assert_eq!(left, 500 + 1_500);
}

#[test]
fn a_session_is_shown_by_its_counts() {
    let shown = format!("{:?}", subscribed());
    assert_eq!(
        shown,
        r#"Session { entries: 3, framework: Some("F1"), connected: true, offers: 3, unacknowledged: 1 }"#
    );
}
