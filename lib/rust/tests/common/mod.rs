//! Streams, events and calls for the tests.

// Each test file uses some of these.
#![allow(dead_code)]

use mesosev::{Refusal, Session, SessionError};
use std::fs;

pub const BEAT: &str = "20\n{\"type\":\"HEARTBEAT\"}";
pub const SUBSCRIBED: &str =
    r#"{"type":"SUBSCRIBED","subscribed":{"framework_id":{"value":"F1"}}}"#;
pub const REVIVE: &str = r#"{"type":"REVIVE","framework_id":{"value":"F1"}}"#;
pub const UPDATE: &str = r#"{"type":"UPDATE","update":{"status":{"task_id":{"value":"T1"},"state":"TASK_RUNNING","agent_id":{"value":"A1"},"uuid":"AAECAwQFBgcICQoLDA0ODw=="}}}"#;
/// The member `acknowledge` for the update.
pub const OWED: &str =
    r#"{"agent_id":{"value":"A1"},"task_id":{"value":"T1"},"uuid":"AAECAwQFBgcICQoLDA0ODw=="}"#;

/// Returns the bytes of a file of the repository's examples.
pub fn example(name: &str) -> Vec<u8> {
    let path = format!("{}/../../examples/{name}", env!("CARGO_MANIFEST_DIR"));
    fs::read(&path).unwrap_or_else(|error| panic!("{path}: {error}"))
}

/// Returns a record with these data.
pub fn record(data: &str) -> String {
    format!("{}\n{data}", data.len())
}

/// Returns a chunked body of these bytes, in chunks of a size.
pub fn chunked(bytes: &str, size: usize) -> Vec<u8> {
    let mut body = Vec::new();
    for chunk in bytes.as_bytes().chunks(size) {
        body.extend(format!("{:x}\r\n", chunk.len()).bytes());
        body.extend(chunk.iter().chain(b"\r\n"));
    }
    body.extend(b"0\r\n\r\n");
    body
}

/// Returns the resource `cpus` of an amount.
fn cpus(amount: f64) -> String {
    format!(r#"{{"name":"cpus","type":"SCALAR","scalar":{{"value":{amount:?}}}}}"#)
}

/// Returns an offer of 1 cpu, as a canonical text.
pub fn offer(id: &str, agent: &str) -> String {
    let resources = cpus(1.0);
    format!(
        r#"{{"id":{{"value":"{id}"}},"framework_id":{{"value":"F1"}},"agent_id":{{"value":"{agent}"}},"hostname":"h","resources":[{resources}]}}"#
    )
}

/// Returns an OFFERS.
pub fn offers(list: &[String]) -> String {
    let list = list.join(",");
    format!(r#"{{"type":"OFFERS","offers":{{"offers":[{list}]}}}}"#)
}

/// Returns a task with an amount of cpus.
pub fn task(id: &str, agent: &str, amount: f64) -> String {
    let resources = cpus(amount);
    format!(
        r#"{{"name":"t","task_id":{{"value":"{id}"}},"agent_id":{{"value":"{agent}"}},"resources":[{resources}]}}"#
    )
}

/// Returns an ACCEPT of offers that launches tasks.
pub fn accept(ids: &[&str], tasks: &[String]) -> String {
    let ids: Vec<_> = ids
        .iter()
        .map(|id| format!(r#"{{"value":"{id}"}}"#))
        .collect();
    let (ids, tasks) = (ids.join(","), tasks.join(","));
    format!(
        r#"{{"type":"ACCEPT","framework_id":{{"value":"F1"}},"accept":{{"offer_ids":[{ids}],"operations":[{{"type":"LAUNCH","launch":{{"task_infos":[{tasks}]}}}}]}}}}"#
    )
}

/// Returns an ACKNOWLEDGE with this member `acknowledge`.
pub fn acknowledge(body: &str) -> String {
    format!(r#"{{"type":"ACKNOWLEDGE","framework_id":{{"value":"F1"}},"acknowledge":{body}}}"#)
}

/// Returns a session with the offers O1 and O2 of agent A1, O3 of A2, and an unacknowledged update.
pub fn subscribed() -> Session {
    let mut session = Session::new().unwrap();
    let list = [offer("O1", "A1"), offer("O2", "A1"), offer("O3", "A2")];
    session.heard(SUBSCRIBED).unwrap();
    session.heard(offers(&list)).unwrap();
    session.heard(UPDATE).unwrap();
    session
}

/// Returns all that the getters of a session return.
pub fn state(session: &Session) -> (u64, bool, Option<String>, Vec<String>, Vec<String>) {
    let offers = session.offers().map(Result::unwrap).collect();
    let owed = session.unacknowledged().map(Result::unwrap).collect();
    (
        session.entries(),
        session.connected(),
        session.framework(),
        offers,
        owed,
    )
}

/// Returns the refusal that this result must be.
pub fn refused<T>(result: Result<T, SessionError>) -> Refusal {
    match result {
        Err(SessionError::Refusal(refusal)) => refusal,
        Err(error) => panic!("no refusal: {error}"),
        Ok(_) => panic!("not refused"),
    }
}
