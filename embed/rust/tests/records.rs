//! Records with all that they have, as a consumer is shown them.

use kpart::{Cluster, Error, Header, Isolation, Limits, Marker, Pass, Record};

const ONE_RECORD: &[u8] = include_bytes!("one_record.batch");
// Of producer 13's transaction: the value 'withdrawn'.
const ABORTED: &[u8] = include_bytes!("aborted.batch");
// python3-kafka built it, of producer 12's records: the first has two headers, the second a null key and value, the third a time before the
// others' and an empty key.
const KEYED: &[u8] = include_bytes!("keyed.batch");

type Done = Result<(), Error>;

fn header(key: &str, value: Option<&[u8]>) -> Header {
    Header { key: key.as_bytes().to_vec(), value: value.map(<[u8]>::to_vec) }
}

fn keyed() -> [Record; 3] {
    let second = Record { offset: 1, timestamp: 1_005, producer: Some((12, 0)), key: None, value: None, headers: vec![] };
    let first = Record {
        offset: 0,
        timestamp: 1_000,
        key: Some(b"k".to_vec()),
        value: Some(b"v".to_vec()),
        headers: vec![header("trace", Some(&[1, 2])), header("none", None)],
        ..second.clone()
    };
    let third = Record {
        offset: 2,
        timestamp: 990,
        key: Some(vec![]),
        value: Some(b"pay 7".to_vec()),
        headers: vec![header("é", Some(&[]))],
        ..second.clone()
    };
    [first, second, third]
}

// The three records at 0 to 2, an aborted one at 3, its marker at 4, and one of no producer at 5.
fn led() -> Result<(Cluster, Pass), Error> {
    let cluster = Cluster::open(1, Limits::default())?;
    let mut pass = cluster.pass()?;
    pass.elect(0)?;
    let mut leader = cluster.node(0)?;
    leader.adopt()?;
    leader.produce(&mut pass, KEYED)?;
    leader.produce(&mut pass, ABORTED)?;
    leader.mark(&mut pass, &Marker { producer_id: 13, producer_epoch: 0, coordinator_epoch: 0, timestamp: 7, commits: false })?;
    leader.produce(&mut pass, ONE_RECORD)?;
    leader.raise()?;
    drop(leader);
    Ok((cluster, pass))
}

#[test]
fn a_consumer_is_shown_keys_headers_times_and_producers() -> Done {
    let (cluster, mut pass) = led()?;
    let mut fetched = cluster.node(0)?.fetch(&mut pass, 0, u32::MAX, Isolation::ReadCommitted)?;
    let records: Vec<Record> = fetched.batches.records(0).collect::<Result<_, Error>>()?;
    assert_eq!(records[..3], keyed());
    assert_eq!((records.len(), records[3].offset, records[3].producer), (4, 5, None));
    assert_eq!(fetched.batches.len(), 4); // they are left
    let offsets = |from: u64, batches: &mut kpart::Batches| -> Result<Vec<u64>, Error> {
        batches.records(from).map(|record| record.map(|it| it.offset)).collect()
    };
    assert_eq!(offsets(2, &mut fetched.batches)?, [2, 5]);
    assert_eq!(offsets(6, &mut fetched.batches)?, [0; 0]);
    fetched.batches.skip_one();
    assert_eq!(offsets(0, &mut fetched.batches)?, [5]);
    Ok(())
}

#[test]
fn without_a_filter_all_data_is_shown_and_no_marker() -> Done {
    let (cluster, mut pass) = led()?;
    let uncommitted = cluster.node(0)?.fetch(&mut pass, 0, u32::MAX, Isolation::ReadUncommitted)?.batches;
    for mut batches in [uncommitted, cluster.node(0)?.log_from(0, u32::MAX)?] {
        let records: Vec<Record> = batches.records(0).collect::<Result<_, Error>>()?;
        let offsets: Vec<u64> = records.iter().map(|record| record.offset).collect();
        assert_eq!(offsets, [0, 1, 2, 3, 5]);
        assert_eq!((records[3].producer, records[3].value.as_deref()), (Some((13, 0)), Some(&b"withdrawn"[..])));
    }
    Ok(())
}
