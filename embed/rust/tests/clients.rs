//! Batches as clients' libraries write them, through a leader and back, byte for byte.
//!
//! KPART_BATCHES names a file with a line for each, words parted by tabs: `produce`, or `mark` and a marker's fields; what has to be
//! answered; and the bytes in hex. `tools/embed` writes it (`tools/lib/embed_vectors.py`). Without it the one batch beside this file
//! is taken.

use kpart::{Cluster, Error, Limits, Marker, Node, Pass, Receipt};

struct Handed {
    how: String,
    answer: String,
    bytes: Vec<u8>,
}

impl Handed {
    fn of(line: &str) -> Handed {
        let words: Vec<&str> = line.split('\t').collect();
        let [how, answer, digits] = words[..] else { panic!("three words: {line:.60}") };
        let byte = |place| u8::from_str_radix(&digits[place..place + 2], 16).expect("hex");
        let bytes = (0..digits.len()).step_by(2).map(byte).collect();
        Handed { how: how.to_string(), answer: answer.to_string(), bytes }
    }

    fn hand_in(&self, node: &mut Node, pass: &mut Pass) -> Result<Receipt, Error> {
        let words: Vec<&str> = self.how.split(' ').collect();
        let number = |place: usize| words[place].parse::<u64>().expect("a number");
        match words[0] {
            "produce" => node.produce(pass, &self.bytes),
            _ => node.mark(
                pass,
                &Marker {
                    producer_id: number(1),
                    producer_epoch: number(2) as u16,
                    coordinator_epoch: number(3) as u32,
                    timestamp: number(4),
                    commits: words[5] == "commit",
                },
            ),
        }
    }

    // The bytes with what a leader stamps.
    fn stamped(&self, receipt: &Receipt) -> Vec<u8> {
        let mut bytes = self.bytes.clone();
        bytes[..8].copy_from_slice(&receipt.base.to_be_bytes());
        bytes[12..16].copy_from_slice(&receipt.epoch.to_be_bytes());
        bytes
    }
}

fn handed() -> Vec<Handed> {
    match std::env::var_os("KPART_BATCHES") {
        Some(file) => std::fs::read_to_string(file).expect("the file").lines().map(Handed::of).collect(),
        None => {
            let bytes = include_bytes!("one_record.batch").to_vec();
            vec![Handed { how: "produce".to_string(), answer: "at 0".to_string(), bytes }]
        }
    }
}

#[test]
fn what_clients_send_comes_back() -> Result<(), Error> {
    let cluster = Cluster::open(1, Limits::default())?;
    let mut pass = cluster.pass()?;
    pass.elect(0)?;
    let mut node = cluster.node(0)?;
    node.adopt()?;
    let mut wanted = Vec::new();
    for one in handed() {
        let given = match one.hand_in(&mut node, &mut pass) {
            Ok(receipt) if receipt.duplicate => format!("duplicate {}", receipt.base),
            Ok(receipt) => {
                wanted.push((receipt.last + 1, one.stamped(&receipt)));
                format!("at {}", receipt.base)
            }
            Err(error) => error.to_string(),
        };
        assert_eq!(given, one.answer);
    }
    let end = node.raise()?;
    let (mut next, mut read) = (0, Vec::new());
    while next < end {
        for bytes in node.read(&mut pass, next)? {
            next = wanted[read.len()].0;
            read.push(bytes?);
        }
    }
    assert!(read.iter().eq(wanted.iter().map(|(_, bytes)| bytes)), "each batch comes back as it was handed in");
    Ok(())
}
