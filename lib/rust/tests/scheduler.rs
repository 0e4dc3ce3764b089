//! Runs examples/scheduler.rs against `mesosev master`, if the environment variable MESOSEV names
//! the command.

use std::env;
use std::fs::File;
use std::io::{BufRead, BufReader, Read};
use std::path::PathBuf;
use std::process::{Command, Stdio};

/// Returns the path of the built example, which is next to the folder of the built test.
fn scheduler() -> PathBuf {
    let test = env::current_exe().unwrap();
    let folder = test.parent().and_then(|it| it.parent()).unwrap();
    folder.join("examples").join("scheduler")
}

/// Runs a master with these options. Returns what the scheduler and the master print.
fn run(command: &str, options: &[&str]) -> (String, String) {
    let path = format!(
        "{}/../../examples/offers.recordio",
        env!("CARGO_MANIFEST_DIR")
    );
    let mut master = Command::new(command)
        .args(["master", "--port=0", "--once", "--seconds=60"])
        .args(options)
        .stdin(File::open(path).unwrap())
        .stdout(Stdio::piped())
        .spawn()
        .unwrap();
    let mut lines = BufReader::new(master.stdout.take().unwrap());
    let mut first = String::new();
    lines.read_line(&mut first).unwrap();
    let address = first.trim_end().strip_prefix("listening on ").unwrap();
    let ran = Command::new(scheduler()).arg(address).output().unwrap();
    let mut rest = String::new();
    lines.read_to_string(&mut rest).unwrap();
    assert!(master.wait().unwrap().success());
    let errors = String::from_utf8_lossy(&ran.stderr);
    assert!(ran.status.success(), "{errors}");
    (String::from_utf8(ran.stdout).unwrap(), rest)
}

#[test]
fn the_scheduler_runs_a_task() {
    let Ok(command) = env::var("MESOSEV") else {
        eprintln!("skipped: MESOSEV does not name the command");
        return;
    };
    for options in [&[][..], &["--most=7"]] {
        let (printed, lines) = run(&command, options);
        assert_eq!(printed, "TASK_STARTING\nTASK_RUNNING\n");
        let calls: Vec<_> = lines
            .lines()
            .filter(|line| !line.starts_with("stream"))
            .collect();
        let expected = "200 SUBSCRIBE, 202 ACCEPT, 202 DECLINE, 202 ACKNOWLEDGE, 202 ACKNOWLEDGE, 202 TEARDOWN";
        assert_eq!(calls.join(", "), expected);
    }
}
