//! `kpart-broker`: Kafka's clients talk to replicated partitions, whose code is proved.

#![forbid(unsafe_code)]

use kpart_broker::{Broker, Options, USAGE};
use std::io::Write as _;
use std::process::ExitCode;

fn main() -> ExitCode {
    let words: Vec<String> = std::env::args().skip(1).collect();
    if matches!(words.first().map(String::as_str), Some("--help" | "-h")) {
        let _said = write!(std::io::stdout(), "{USAGE}");
        return ExitCode::SUCCESS;
    }
    let started = Options::of_words(&words).map_err(kpart_broker::Fault::from).and_then(Broker::start);
    let broker = match started {
        Ok(broker) => broker,
        Err(fault) => {
            let _said = writeln!(std::io::stderr(), "kpart-broker: {fault}");
            return ExitCode::from(2);
        }
    };
    let admin = broker.admin_port().map(|it| format!("; admin 127.0.0.1:{it}")).unwrap_or_default();
    let _said = writeln!(std::io::stdout(), "ready: bootstrap {}{admin}", broker.bootstrap());
    broker.wait();
    ExitCode::SUCCESS
}
