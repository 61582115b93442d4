//! Tests the payment service through failovers: each payment that was acknowledged has to be booked, once.
//!
//! The broker runs in the test's own process. `PAYMENTS` has properties for the service, as `acks=1 enable.idempotence=false`; `RECORDS` is a
//! folder, in which each test's record gets one of its own.

use kpart_broker::{Broker, Options, TopicOption};
use payments::{Book, Ledger, Orders, Payment, Properties, TOPIC, Worker, properties};
use std::collections::BTreeMap;
use std::error::Error;
use std::path::PathBuf;
use std::time::{Duration, Instant};
use std::{env, fs, io, thread};

type Outcome = Result<(), Box<dyn Error + Send + Sync>>;

const LONG: Duration = Duration::from_secs(30);
const STEP: Duration = Duration::from_millis(50);
const ACCOUNTS: [&str; 4] = ["anna", "ben", "carl", "dora"];
/// The payment that comes during the failover, of 20.
const DURING: u32 = 11;
const LAST: u32 = 20;
/// What a test wants of librdkafka: quick second tries, and a dead worker's part free after a second.
const QUICK: &str = "retry.backoff.ms=20 reconnect.backoff.ms=20 reconnect.backoff.max.ms=200 log_level=2 \
topic.metadata.refresh.fast.interval.ms=20 session.timeout.ms=1000 heartbeat.interval.ms=100";

fn payment_of(id: u32) -> Payment {
    let name = |number: u32| ACCOUNTS[number as usize % ACCOUNTS.len()].to_string();
    Payment { id, from: name(id), to: name(id + 1 + id % 3), amount: 100 + 25 * id }
}

fn until(what: &str, holds: impl Fn() -> bool) -> Outcome {
    let end = Instant::now() + LONG;
    while !holds() {
        if Instant::now() > end {
            return Err(format!("not after {LONG:?}: {what}").into());
        }
        thread::sleep(Duration::from_millis(5));
    }
    Ok(())
}

/// A broker of three nodes, the service, and its ledger.
struct Test {
    broker: Broker,
    orders: Orders,
    given: Properties,
    ledger: Ledger,
    paid: Vec<Payment>,
}

impl Test {
    fn start(name: &str) -> Result<Test, Box<dyn Error + Send + Sync>> {
        let given = properties(&format!("{QUICK} {}", env::var("PAYMENTS").unwrap_or_default()));
        let record = env::var_os("RECORDS").map(|it| PathBuf::from(it).join(name));
        record.as_ref().map_or(Ok(()), fs::create_dir_all)?;
        let topics = vec![TopicOption { name: TOPIC.to_string(), partitions: 1 }];
        // Nobody leaves the in-sync replicas in so short a test: so it is the tester who elects, and no clock.
        let broker = Broker::start(Options { topics, lag: Duration::from_secs(60), record, ..Options::default() })?;
        let orders = Orders::open(&broker.bootstrap(), &given)?;
        let path = env::temp_dir().join(format!("payments-{name}-{}", std::process::id()));
        let ledger = Ledger::open(&path)?;
        fs::remove_file(path)?;
        Ok(Test { broker, orders, given, ledger, paid: Vec::new() })
    }

    /// Orders these payments one by one, each once the one before is acknowledged.
    fn pay(&mut self, ids: impl IntoIterator<Item = u32>) -> Outcome {
        for payment in ids.into_iter().map(payment_of) {
            self.orders.order(&payment)?;
            self.paid.push(payment);
        }
        Ok(())
    }

    /// Orders the payment in another thread, and does something meanwhile.
    fn pay_during(&mut self, failover: impl FnOnce(&Broker) -> Outcome) -> Outcome {
        let (broker, orders, payment) = (&self.broker, &mut self.orders, payment_of(DURING));
        let (done, answer) = thread::scope(|scope| {
            let ordering = scope.spawn(|| orders.order(&payment));
            (failover(broker), ordering.join())
        });
        done?;
        answer.map_err(|_| "the order panicked")??;
        self.paid.push(payment);
        Ok(())
    }

    /// Has a worker book all that the leader has.
    fn book_all(&mut self) -> Outcome {
        let mut worker = Worker::open(&self.broker.bootstrap(), &self.given)?;
        let leader = self.broker.leader(TOPIC, 0).ok_or("nobody leads")?;
        let (all, until) = (number(&self.broker, leader, "end"), Instant::now() + LONG);
        while self.ledger.end < all {
            worker.work(&mut self.ledger, STEP)?;
            if Instant::now() > until {
                return Err("not all is booked".into());
            }
        }
        Ok(())
    }

    /// What is wrong with the ledger.
    fn check(&self) -> Outcome {
        let mut wrong = Vec::new();
        for it in &self.paid {
            match self.ledger.booked.iter().filter(|other| it.id == other.id).count() {
                0 => wrong.push(format!("payment {} was acknowledged, and is not booked", it.id)),
                1 => {}
                _ => wrong.push(format!("payment {} was acknowledged, and is booked twice", it.id)),
            }
        }
        let (wanted, found) = (balances(&self.paid), balances(&self.ledger.booked));
        for (name, balance) in &found {
            let other = wanted.get(name).copied().unwrap_or_default();
            wrong.extend((*balance != other).then(|| format!("{name} has {balance}, and not {other}")));
        }
        if wrong.is_empty() { Ok(()) } else { Err(wrong.join("; ").into()) }
    }

    /// The payments behind the failover; then all are booked, and compared.
    fn end(mut self) -> Outcome {
        self.pay(DURING + 1..=LAST)?;
        self.book_all()?;
        self.check()
    }
}

fn balances(payments: &[Payment]) -> BTreeMap<&str, i64> {
    let mut found = BTreeMap::new();
    for it in payments {
        *found.entry(&it.from[..]).or_default() -= i64::from(it.amount);
        *found.entry(&it.to[..]).or_default() += i64::from(it.amount);
    }
    found
}

/// What the broker shows of a node, by its name: `end`, `watermark`.
fn number(broker: &Broker, node: u8, name: &str) -> i64 {
    let shown = broker.show();
    let line = shown.lines().find(|it| it.starts_with(&format!("  node {node} "))).unwrap_or_default();
    let mut words = line.split_whitespace().skip_while(|it| *it != name);
    words.nth(1).and_then(|it| it.parse().ok()).unwrap_or(-1)
}

#[test]
fn a_leader_is_cut_off() -> Outcome {
    let mut test = Test::start("cut-off")?;
    test.pay(1..DURING)?;
    let broker = &test.broker;
    until("all have the first ones", || (0..3).all(|node| number(broker, node, "end") == i64::from(DURING) - 1))?;
    for follower in [1, 2] {
        broker.cut(0, follower)?;
        broker.cut(follower, 0)?;
    }
    test.pay_during(|broker| {
        until("the leader has it", || number(broker, 0, "end") == DURING.into())?;
        broker.elect(1)?;
        broker.heal();
        Ok(())
    })?;
    test.end()
}

#[test]
fn a_leader_stops_before_it_answers() -> Outcome {
    let mut test = Test::start("unanswered")?;
    test.pay(1..DURING)?;
    test.broker.hold(0)?;
    test.pay_during(|broker| {
        until("it is committed", || number(broker, 0, "watermark") == DURING.into())?;
        broker.stop(0)?;
        Ok(broker.release(0)?)
    })?;
    test.end()
}

/// A ledger on a machine that goes down with node 0, once this payment is to be booked.
struct OnMachine<'t> {
    broker: &'t Broker,
    ledger: &'t mut Ledger,
}

impl Book for OnMachine<'_> {
    fn book(&mut self, place: i64, payment: &Payment) -> io::Result<()> {
        if payment.id < DURING {
            return self.ledger.book(place, payment);
        }
        self.broker.stop(0).map_err(io::Error::other)?;
        Err(io::Error::other("the machine is down"))
    }
}

#[test]
fn a_worker_dies_with_its_machine() -> Outcome {
    let mut test = Test::start("machine-down")?;
    test.pay(1..=DURING)?;
    let mut worker = Worker::open(&test.broker.bootstrap(), &test.given)?;
    let mut ledger = OnMachine { broker: &test.broker, ledger: &mut test.ledger };
    let until = Instant::now() + LONG;
    while worker.work(&mut ledger, STEP).is_ok() {
        if Instant::now() > until {
            return Err("the payment didn't come".into());
        }
    }
    drop(worker);
    test.end()
}
