//! `payments order BOOTSTRAP [NAME=VALUE..]` orders a payment for each line of standard input, as `11 anna ben 250`, and says
//! `acknowledged 11` once it stands. `payments book BOOTSTRAP LEDGER [NAME=VALUE..]` books them into the file LEDGER.

use payments::{Fault, Ledger, Orders, Payment, Properties, Worker, properties};
use std::io::{self, BufRead};
use std::path::Path;
use std::process::ExitCode;
use std::time::Duration;

fn order(bootstrap: &str, given: &Properties) -> Result<(), Fault> {
    let mut orders = Orders::open(bootstrap, given)?;
    for line in io::stdin().lock().lines() {
        let line = line?;
        let payment = Payment::of_order(&line).ok_or_else(|| Fault::from(format!("no order: {line}")))?;
        match orders.order(&payment) {
            Ok(()) => println!("acknowledged {}", payment.id),
            Err(fault) => println!("failed {}: {fault}", payment.id),
        }
    }
    Ok(())
}

fn book(bootstrap: &str, path: &str, given: &Properties) -> Result<(), Fault> {
    let mut ledger = Ledger::open(Path::new(path))?;
    let mut worker = Worker::open(bootstrap, given)?;
    loop {
        worker.work(&mut ledger, Duration::from_secs(1))?;
    }
}

fn main() -> ExitCode {
    let (given, words): (Vec<String>, Vec<String>) = std::env::args().skip(1).partition(|it| it.contains('='));
    let given = properties(&given.join(" "));
    let ended = match &words.iter().map(String::as_str).collect::<Vec<_>>()[..] {
        ["order", bootstrap] => order(bootstrap, &given),
        ["book", bootstrap, path] => book(bootstrap, path, &given),
        _ => Err(Fault::from("payments order BOOTSTRAP [NAME=VALUE..] | payments book BOOTSTRAP LEDGER [NAME=VALUE..]".to_string())),
    };
    match ended {
        Ok(()) => ExitCode::SUCCESS,
        Err(fault) => {
            eprintln!("payments: {fault}");
            ExitCode::FAILURE
        }
    }
}
