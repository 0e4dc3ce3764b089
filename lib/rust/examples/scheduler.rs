//! usage: scheduler HOST:PORT: launches a task on the first offer, and ends once the task runs.
//!
//! A proved session checks each call before it is sent. There is no JSON parser: parts of canonical
//! texts, whose members have a fixed order, are put into calls. `,"hostname":` is found only where
//! that member begins, since a quotation mark inside a string has a backslash before it.

use mesosev::{EventKind, Framing, Options, Session};
use std::env::args;
use std::error::Error;
use std::io::{BufRead, BufReader, Write};
use std::net::TcpStream;
use std::process::exit;

type Outcome<T> = Result<T, Box<dyn Error>>;

/// A framework that is subscribed to a master.
struct Scheduler {
    address: String,
    session: Session,
    /// The value of the header field `Mesos-Stream-Id`.
    stream_id: String,
    /// The identifier of the framework as a JSON object, once there was an offer.
    framework: String,
}

/// Returns the part of a canonical text after one text and before another.
fn part<'a>(text: &'a str, after: &str, before: &str) -> Outcome<&'a str> {
    let rest = text.split_once(after).map_or("", |found| found.1);
    let found = rest.split_once(before).map(|found| found.0);
    Ok(found.ok_or_else(|| format!("{text} has no {after}"))?)
}

/// Sends a call. Returns the response, without its head, and the stream id in its head.
fn post(address: &str, call: &str, field: &str) -> Outcome<(BufReader<TcpStream>, String)> {
    let length = call.len();
    let request = format!(
        "POST /api/v1/scheduler HTTP/1.1\r\nHost: {address}\r\nContent-Type: application/json\r\n\
         Accept: application/json\r\n{field}Content-Length: {length}\r\n\r\n{call}"
    );
    let mut stream = TcpStream::connect(address)?;
    stream.write_all(request.as_bytes())?;
    let mut response = BufReader::new(stream);
    let (mut line, mut stream_id) = (String::new(), String::new());
    response.read_line(&mut line)?;
    if !matches!(line.split(' ').nth(1), Some("200" | "202")) {
        return Err(format!("the master returned {line:?} for {call}").into());
    }
    while line.len() > "\r\n".len() {
        line.clear();
        response.read_line(&mut line)?;
        match line.split_once(": ") {
            Some((name, value)) if name.eq_ignore_ascii_case("Mesos-Stream-Id") => {
                stream_id = value.trim().to_owned();
            }
            _ => {}
        }
    }
    Ok((response, stream_id))
}

impl Scheduler {
    /// Checks a call, and sends it if it is allowed.
    fn send(&mut self, kind: &str, body: &str) -> Outcome<()> {
        let framework = &self.framework;
        let call = format!(r#"{{"type":"{kind}","framework_id":{framework}{body}}}"#);
        let call = self.session.said(call)?;
        let stream_id = &self.stream_id;
        let field = format!("Connection: close\r\nMesos-Stream-Id: {stream_id}\r\n");
        post(&self.address, &call, &field)?;
        Ok(())
    }

    /// Launches a task on the first outstanding offer, and declines the others.
    fn use_offers(&mut self) -> Outcome<()> {
        let offers: Result<Vec<_>, _> = self.session.offers().collect();
        let offers = offers?;
        let mut ids = Vec::new();
        for offer in &offers {
            ids.push(part(offer, r#"{"id":"#, r#","framework_id":"#)?);
        }
        let (Some(offer), Some(id)) = (offers.first(), ids.first()) else {
            return Ok(());
        };
        self.framework = part(offer, r#","framework_id":"#, r#","agent_id":"#)?.to_owned();
        let agent = part(offer, r#","agent_id":"#, r#","hostname":"#)?;
        let task = format!(
            r#"{{"name":"t","task_id":{{"value":"t"}},"agent_id":{agent},"resources":[
            {{"name":"cpus","type":"SCALAR","scalar":{{"value":0.5}}}},
            {{"name":"mem","type":"SCALAR","scalar":{{"value":128}}}}],
            "command":{{"value":"sleep 100"}}}}"#
        );
        let launch = format!(r#"{{"type":"LAUNCH","launch":{{"task_infos":[{task}]}}}}"#);
        let accept = format!(r#","accept":{{"offer_ids":[{id}],"operations":[{launch}]}}"#);
        self.send("ACCEPT", &accept)?;
        if ids.len() > 1 {
            let others = ids[1..].join(",");
            let decline = format!(r#","decline":{{"offer_ids":[{others}]}}"#);
            self.send("DECLINE", &decline)?;
        }
        Ok(())
    }

    /// Prints the state of a task, acknowledges all updates, and ends the framework once it runs.
    fn take_update(&mut self, update: &str) -> Outcome<()> {
        let state = part(update, r#","state":""#, "\"")?;
        println!("{state}");
        let owed: Result<Vec<_>, _> = self.session.unacknowledged().collect();
        for body in owed? {
            self.send("ACKNOWLEDGE", &format!(r#","acknowledge":{body}"#))?;
        }
        if state == "TASK_RUNNING" {
            self.send("TEARDOWN", "")?;
        }
        Ok(())
    }
}

/// Runs the scheduler until the master ends the stream.
fn run() -> Outcome<()> {
    let address = args().nth(1).ok_or("usage: scheduler HOST:PORT")?;
    let mut session = Session::new()?;
    let call = session.subscribe(r#"{"user":"root","name":"proved"}"#)?;
    let (response, stream_id) = post(&address, &call, "")?;
    let framework = String::new();
    let mut scheduler = Scheduler {
        address,
        session,
        stream_id,
        framework,
    };
    for event in Options::new().framing(Framing::Chunked).events(response) {
        let event = event?;
        scheduler.session.heard(&event.text)?;
        match event.kind {
            EventKind::Offers => scheduler.use_offers()?,
            EventKind::Update => scheduler.take_update(&event.text)?,
            _ => {}
        }
    }
    Ok(())
}

fn main() {
    if let Err(error) = run() {
        eprintln!("scheduler: {error}");
        exit(1);
    }
}
