//! Each call once, and what the types refuse.

use kpart::{
    AbortedTransaction, Ack, Addressee, Batch, BatchHead, Change, Cluster, CommittedRecord, EpochEnd, Error, Fetched, Isolation,
    Leadership, Limits, Marker, Message, NodeState, OpenTransaction, Pass, ProducerState, Recorder, RecorderFault, Refusal, Role, Said,
    Segment, Status, TimeOffset,
};

const ONE_RECORD: &[u8] = include_bytes!("one_record.batch");
// Of producer 12's transaction: the values 'paid' and null.
const TRANSACTION: &[u8] = include_bytes!("transaction.batch");
// Of producer 13's transaction: the value 'withdrawn'.
const ABORTED: &[u8] = include_bytes!("aborted.batch");

type Done = Result<(), Error>;

fn opened(nodes: u8) -> Result<(Cluster, Pass), Error> {
    let cluster = Cluster::open(nodes, Limits::default())?;
    let pass = cluster.pass()?;
    Ok((cluster, pass))
}

fn led(nodes: u8) -> Result<(Cluster, Pass), Error> {
    let (cluster, mut pass) = opened(nodes)?;
    pass.elect(0)?;
    for number in 0..nodes {
        cluster.node(number)?.adopt()?;
    }
    Ok((cluster, pass))
}

// Hands a message on until nobody answers.
fn carry(cluster: &Cluster, pass: &mut Pass, message: Message) -> Done {
    let mut under_way = Some(message);
    while let Some(message) = under_way.take() {
        under_way = match message.addressee() {
            Addressee::Node(number) => cluster.node(number)?.step(message)?,
            Addressee::Controller => Some(pass.decide(message)?),
        };
    }
    Ok(())
}

fn replicate(cluster: &Cluster, pass: &mut Pass, follower: u8) -> Done {
    let request = cluster.node(follower)?.ask()?;
    carry(cluster, pass, request)
}

fn bytes_read(cluster: &Cluster, pass: &mut Pass, node: u8) -> Result<Vec<Vec<u8>>, Error> {
    cluster.node(node)?.read(pass, 0)?.collect()
}

#[test]
fn a_batch_is_replicated_and_committed() -> Done {
    let (cluster, mut pass) = led(2)?;
    let receipt = cluster.node(0)?.produce(&mut pass, ONE_RECORD)?;
    assert_eq!((receipt.base, receipt.last, receipt.epoch, receipt.duplicate), (0, 0, 0, false));
    replicate(&cluster, &mut pass, 1)?;
    assert_eq!(cluster.node(0)?.raise()?, 0);
    assert_eq!(cluster.node(0)?.acked(&mut pass, &receipt)?, Ack::NotYet);
    replicate(&cluster, &mut pass, 1)?; // tells the leader that it has it
    assert_eq!(cluster.node(0)?.raise()?, 1);
    assert_eq!(cluster.node(0)?.acked(&mut pass, &receipt)?, Ack::Yes);
    replicate(&cluster, &mut pass, 1)?; // learns that it is committed
    assert_eq!(pass.watermark(1)?, 1);
    for node in [0, 1] {
        let read = bytes_read(&cluster, &mut pass, node)?;
        assert_eq!((read.len(), &read[0][16..]), (1, &ONE_RECORD[16..]));
    }
    Ok(())
}

#[test]
fn a_batch_is_copied_before_a_node_gets_it() -> Done {
    let (cluster, mut pass) = led(1)?;
    let mut batch = Batch::new(ONE_RECORD)?;
    for base in [0, 1] {
        let receipt = cluster.node(0)?.produce_batch(&mut pass, &mut batch)?;
        assert_eq!((receipt.base, receipt.last, receipt.duplicate), (base, base, false));
    }
    cluster.node(0)?.raise()?;
    let read = bytes_read(&cluster, &mut pass, 0)?;
    assert_eq!((read.len(), &read[0][16..], &read[1][16..]), (2, &ONE_RECORD[16..], &ONE_RECORD[16..]));
    let mut broken = ONE_RECORD.to_vec();
    broken[65] ^= 1;
    batch.set(&broken)?;
    assert_eq!(cluster.node(0)?.produce_batch(&mut pass, &mut batch), Err(Refusal::BadCrc.into()));
    batch.set(&ONE_RECORD[..60])?;
    assert_eq!(cluster.node(0)?.produce_batch(&mut pass, &mut batch), Err(Refusal::Truncated.into()));
    batch.set(TRANSACTION)?;
    let receipt = cluster.node(0)?.produce_batch(&mut pass, &mut batch)?;
    assert_eq!((receipt.base, receipt.last, receipt.duplicate), (2, 3, false)); // two records
    assert!(cluster.node(0)?.produce_batch(&mut pass, &mut batch)?.duplicate); // the same sequence numbers again
    Ok(())
}

#[test]
fn what_fits_one_node_is_too_large_for_another() -> Done {
    let small = Cluster::open(1, Limits { max_batch: ONE_RECORD.len() as u32 - 1, ..Limits::default() })?;
    let mut pass = small.pass()?;
    pass.elect(0)?;
    small.node(0)?.adopt()?;
    let mut batch = Batch::new(ONE_RECORD)?;
    assert_eq!(small.node(0)?.produce_batch(&mut pass, &mut batch), Err(Refusal::TooLarge.into()));
    let (cluster, mut pass) = led(1)?;
    assert_eq!(cluster.node(0)?.produce_batch(&mut pass, &mut batch)?.base, 0);
    let (_, mut stranger) = led(1)?;
    assert_eq!(cluster.node(0)?.produce_batch(&mut stranger, &mut batch), Err(Error::OtherCluster));
    Ok(())
}

#[test]
fn a_lost_batch_is_handed_in_again() -> Done {
    let (cluster, mut pass) = led(2)?;
    let lost = cluster.node(0)?.produce(&mut pass, ONE_RECORD)?; // on node 0 alone
    pass.elect(1)?;
    assert_eq!(cluster.node(1)?.adopt()?, Role::Leads { epoch: 1, start: 0 });
    let kept = cluster.node(1)?.produce(&mut pass, ONE_RECORD)?;
    assert_eq!(cluster.node(0)?.adopt()?, Role::Follows { leader: 1, epoch: 1 });
    for _ in 0..3 {
        replicate(&cluster, &mut pass, 0)?; // cuts, takes, tells
    }
    assert_eq!(cluster.node(1)?.raise()?, 1);
    assert_eq!(cluster.node(1)?.acked(&mut pass, &lost)?, Ack::Lost);
    assert_eq!(cluster.node(1)?.acked(&mut pass, &kept)?, Ack::Yes);
    Ok(())
}

#[test]
fn in_sync_changes_go_by_the_controller() -> Done {
    let (cluster, mut pass) = led(2)?;
    let proposal = cluster.node(0)?.alter(Change::Leave(1))?;
    let again = cluster.node(0)?.alter(Change::Leave(1))?;
    assert_eq!(cluster.node(0)?.alter(Change::Leave(0)).err(), Some(Refusal::ChangePending.into()));
    assert_eq!(proposal.addressee(), Addressee::Controller);
    carry(&cluster, &mut pass, proposal)?;
    assert!(!pass.leadership()?.has_in_sync(1));
    assert_eq!(carry(&cluster, &mut pass, again), Err(Refusal::StaleAnswer.into())); // it learns nothing new
    let receipt = cluster.node(0)?.produce(&mut pass, ONE_RECORD)?;
    assert_eq!(cluster.node(0)?.raise()?, 1);
    assert_eq!(cluster.node(0)?.acked(&mut pass, &receipt)?, Ack::Yes);
    assert_eq!(pass.elect(1), Err(Refusal::NotInSync.into()));
    assert_eq!(cluster.node(0)?.alter(Change::Join(1)).err(), Some(Refusal::NotCaughtUp.into()));
    replicate(&cluster, &mut pass, 1)?;
    replicate(&cluster, &mut pass, 1)?;
    let proposal = cluster.node(0)?.alter(Change::Join(1))?;
    carry(&cluster, &mut pass, proposal)?;
    assert!(pass.leadership()?.has_in_sync(1));
    Ok(())
}

#[test]
fn a_node_stops_and_starts() -> Done {
    let (cluster, mut pass) = led(1)?;
    cluster.node(0)?.produce(&mut pass, TRANSACTION)?;
    cluster.node(0)?.raise()?;
    assert_eq!(cluster.node(0)?.checkpoint()?, 2);
    cluster.node(0)?.produce(&mut pass, ONE_RECORD)?;
    cluster.node(0)?.stop()?;
    assert_eq!(cluster.node(0)?.read(&mut pass, 0).err(), Some(Refusal::Down.into()));
    assert_eq!(cluster.node(0)?.read_committed(&mut pass, 0).err(), Some(Refusal::Down.into()));
    let restarted = cluster.node(0)?.restart()?;
    assert_eq!((restarted.life, restarted.end, restarted.watermark), (1, 3, 2));
    assert_eq!(cluster.node(0)?.adopt(), Err(Refusal::StaleRecord.into())); // it has to be elected anew
    assert_eq!(cluster.node(0)?.produce(&mut pass, ONE_RECORD), Err(Refusal::NotLeader.into()));
    Ok(())
}

#[test]
fn records_and_roles_have_their_fields() -> Done {
    let (cluster, mut pass) = opened(3)?;
    pass.elect(1)?;
    let wanted = Leadership { version: 2, leader: Some((2, 1)), in_sync: [true, true, true, false, false, false, false] };
    assert_eq!((pass.elect(2)?, pass.leadership()?), (wanted, wanted));
    assert_eq!(cluster.node(0)?.adopt()?, Role::Follows { leader: 2, epoch: 1 });
    cluster.node(2)?.adopt()?;
    for _ in 0..5 {
        cluster.node(2)?.produce(&mut pass, ONE_RECORD)?;
    }
    pass.elect(2)?;
    assert_eq!(cluster.node(2)?.adopt()?, Role::Leads { epoch: 2, start: 5 });
    Ok(())
}

#[test]
fn a_marker_ends_a_transaction() -> Done {
    let (cluster, mut pass) = led(1)?;
    let marker = Marker { producer_id: 12, producer_epoch: 0, coordinator_epoch: 1, timestamp: 1_000, commits: true };
    let receipt = cluster.node(0)?.mark(&mut pass, &marker)?;
    assert_eq!((receipt.base, receipt.last), (0, 0));
    let earlier = Marker { coordinator_epoch: 0, ..marker };
    assert_eq!(cluster.node(0)?.mark(&mut pass, &earlier), Err(Refusal::CoordinatorFenced.into()));
    let wrong = Marker { producer_id: 1 << 63, ..marker };
    assert_eq!(cluster.node(0)?.mark(&mut pass, &wrong), Err(Error::OutOfRange));
    Ok(())
}

fn ended(producer_id: u64, commits: bool) -> Marker {
    Marker { producer_id, producer_epoch: 0, coordinator_epoch: 0, timestamp: 1_000, commits }
}

fn committed(cluster: &Cluster, pass: &mut Pass, from: u64) -> Result<Vec<CommittedRecord>, Error> {
    cluster.node(0)?.read_committed(pass, from)?.collect()
}

#[test]
fn a_read_committed_consumer_gets_what_was_committed() -> Done {
    let (cluster, mut pass) = led(1)?;
    let paid = |offset, value: Option<&str>| CommittedRecord { offset, value: value.map(|it| it.as_bytes().to_vec()) };
    let wanted = vec![paid(0, Some("paid")), paid(1, None)];
    for batch in [TRANSACTION, ABORTED] {
        cluster.node(0)?.produce(&mut pass, batch)?;
    }
    cluster.node(0)?.raise()?;
    assert!(committed(&cluster, &mut pass, 0)?.is_empty()); // nothing has ended
    cluster.node(0)?.mark(&mut pass, &ended(13, false))?;
    cluster.node(0)?.raise()?;
    assert!(committed(&cluster, &mut pass, 0)?.is_empty());
    cluster.node(0)?.mark(&mut pass, &ended(12, true))?;
    cluster.node(0)?.raise()?;
    assert_eq!(committed(&cluster, &mut pass, 0)?, wanted);
    assert_eq!(committed(&cluster, &mut pass, 1)?, wanted[1..]);
    assert!(committed(&cluster, &mut pass, 5)?.is_empty());
    assert_eq!(committed(&cluster, &mut pass, 6).err(), Some(Refusal::OffsetOutOfRange.into()));
    assert_eq!(bytes_read(&cluster, &mut pass, 0)?.len(), 4); // any other consumer gets all of it
    Ok(())
}

fn fetched(cluster: &Cluster, pass: &mut Pass, from: u64, isolation: Isolation) -> Result<Fetched, Error> {
    cluster.node(0)?.fetch(pass, from, 1 << 20, isolation)
}

// Its batches' sizes, and high watermark, last stable offset and log end.
fn shown(fetched: &Fetched) -> (usize, u64, u64, u64) {
    (fetched.batches.len(), fetched.watermark, fetched.stable, fetched.end)
}

#[test]
fn a_fetch_is_of_one_moment() -> Done {
    let (cluster, mut pass) = led(1)?;
    for batch in [TRANSACTION, ABORTED] {
        cluster.node(0)?.produce(&mut pass, batch)?; // at 0 and 1, and at 2
    }
    assert_eq!(shown(&fetched(&cluster, &mut pass, 0, Isolation::ReadUncommitted)?), (0, 0, 0, 3));
    cluster.node(0)?.raise()?;
    assert_eq!(shown(&fetched(&cluster, &mut pass, 0, Isolation::ReadCommitted)?), (0, 3, 0, 3));
    cluster.node(0)?.mark(&mut pass, &ended(13, false))?; // at 3
    cluster.node(0)?.mark(&mut pass, &ended(12, true))?; // at 4
    cluster.node(0)?.raise()?;
    let all = fetched(&cluster, &mut pass, 1, Isolation::ReadUncommitted)?;
    assert_eq!((shown(&all), all.aborted), ((4, 5, 5, 5), vec![]));
    let aborted = vec![AbortedTransaction { producer_id: 13, first: 2 }];
    for (from, count) in [(0, 4), (1, 4), (2, 3), (3, 2)] {
        let found = fetched(&cluster, &mut pass, from, Isolation::ReadCommitted)?;
        assert_eq!((shown(&found), &found.aborted), ((count, 5, 5, 5), &aborted), "from {from}");
    }
    let marker = fetched(&cluster, &mut pass, 4, Isolation::ReadCommitted)?;
    assert_eq!((shown(&marker), marker.aborted), ((1, 5, 5, 5), vec![])); // it ended below
    let committed = cluster.node(0)?.fetch(&mut pass, 0, TRANSACTION.len() as u32, Isolation::ReadCommitted)?;
    assert_eq!((committed.batches.len(), committed.aborted), (1, vec![])); // it begins above
    assert_eq!(fetched(&cluster, &mut pass, 6, Isolation::ReadCommitted).err(), Some(Refusal::OffsetOutOfRange.into()));
    cluster.node(0)?.stop()?;
    assert_eq!(fetched(&cluster, &mut pass, 0, Isolation::ReadUncommitted).err(), Some(Refusal::Down.into()));
    Ok(())
}

#[test]
fn a_fetch_has_one_batch_at_least_and_as_many_as_fit() -> Done {
    let (cluster, mut pass) = led(1)?;
    for _ in 0..3 {
        cluster.node(0)?.produce(&mut pass, ONE_RECORD)?;
    }
    cluster.node(0)?.raise()?;
    let size = ONE_RECORD.len() as u32;
    for (most, count) in [(0, 1), (1, 1), (size, 1), (2 * size - 1, 1), (2 * size, 2), (3 * size - 1, 2), (u32::MAX, 3)] {
        let found = cluster.node(0)?.fetch(&mut pass, 0, most, Isolation::ReadUncommitted)?;
        assert_eq!(found.batches.len(), count, "{most} bytes");
    }
    let mut found = fetched(&cluster, &mut pass, 1, Isolation::ReadUncommitted)?;
    let mut answer = b"before".to_vec();
    while found.batches.append_to(&mut answer)? {}
    assert_eq!(answer.len(), 6 + 2 * ONE_RECORD.len());
    assert_eq!((&answer[..6], answer[13], answer[13 + ONE_RECORD.len()]), (&b"before"[..], 1, 2)); // base offsets, in their last bytes
    assert_eq!(&answer[6 + 16..6 + ONE_RECORD.len()], &ONE_RECORD[16..]);
    Ok(())
}

#[test]
fn a_node_shows_its_state() -> Done {
    let (cluster, mut pass) = opened(2)?;
    let fresh = NodeState { life: 0, kept_epoch: None, status: Status::Idle, end: 0, watermark: 0, stable: 0, checkpoint: 0 };
    assert_eq!(cluster.node(1)?.show()?, fresh);
    pass.elect(1)?;
    pass.elect(1)?;
    cluster.node(0)?.adopt()?;
    assert_eq!(
        cluster.node(0)?.show()?,
        NodeState { kept_epoch: Some(1), status: Status::Plays(Role::Follows { leader: 1, epoch: 1 }), ..fresh }
    );
    cluster.node(1)?.adopt()?;
    for batch in [ONE_RECORD, TRANSACTION] {
        cluster.node(1)?.produce(&mut pass, batch)?;
    }
    for _ in 0..3 {
        replicate(&cluster, &mut pass, 0)?;
        cluster.node(1)?.raise()?;
    }
    pass.elect(1)?;
    cluster.node(1)?.adopt()?;
    cluster.node(1)?.checkpoint()?;
    cluster.node(1)?.produce(&mut pass, ONE_RECORD)?;
    let leads = Status::Plays(Role::Leads { epoch: 2, start: 3 });
    let wanted = NodeState { life: 0, kept_epoch: Some(2), status: leads, end: 4, watermark: 3, stable: 1, checkpoint: 3 };
    assert_eq!(cluster.node(1)?.show()?, wanted);
    cluster.node(1)?.stop()?;
    assert_eq!(cluster.node(1)?.show()?, NodeState { status: Status::Down, ..wanted });
    cluster.node(1)?.restart()?;
    assert_eq!(cluster.node(1)?.show()?, NodeState { life: 1, status: Status::Idle, ..wanted });
    Ok(())
}

#[test]
fn a_leader_says_where_an_epoch_ends() -> Done {
    let (cluster, mut pass) = led(1)?;
    assert_eq!(cluster.node(0)?.end_for(7)?, None);
    for epoch in 0..3 {
        if epoch != 1 {
            cluster.node(0)?.produce(&mut pass, TRANSACTION)?; // the second one is the first once more
            cluster.node(0)?.produce(&mut pass, ONE_RECORD)?;
        }
        pass.elect(0)?;
        cluster.node(0)?.adopt()?;
    }
    let ends = [(0, 0, 3), (1, 0, 3), (2, 2, 4), (9, 2, 4)];
    for (asked, epoch, end) in ends {
        assert_eq!(cluster.node(0)?.end_for(asked)?, Some(EpochEnd { epoch, end }), "of {asked}");
    }
    cluster.node(0)?.stop()?;
    assert_eq!(cluster.node(0)?.end_for(0), Err(Refusal::Down.into()));
    cluster.node(0)?.restart()?;
    assert_eq!(cluster.node(0)?.end_for(0), Err(Refusal::NotLeader.into()));
    Ok(())
}

#[test]
fn an_offset_is_found_for_a_time_where_it_is_shown() -> Done {
    let (cluster, mut pass) = led(1)?;
    let found = |pass: &mut Pass, time, isolation| cluster.node(0)?.offset_for_time(pass, time, isolation);
    let marker = Marker { timestamp: 9_000_000_000_000, ..ended(12, true) };
    cluster.node(0)?.produce(&mut pass, TRANSACTION)?; // at 0 and 1
    assert_eq!(found(&mut pass, 0, Isolation::ReadUncommitted)?, None);
    cluster.node(0)?.raise()?;
    let first = found(&mut pass, 0, Isolation::ReadUncommitted)?;
    assert_eq!(first.map(|it| it.offset), Some(0));
    assert_eq!(found(&mut pass, 0, Isolation::ReadCommitted)?, None); // it is open
    cluster.node(0)?.mark(&mut pass, &marker)?; // at 2
    assert_eq!(found(&mut pass, marker.timestamp, Isolation::ReadUncommitted)?, None);
    cluster.node(0)?.raise()?;
    assert_eq!(found(&mut pass, 0, Isolation::ReadCommitted)?, first);
    let last = TimeOffset { offset: 2, timestamp: marker.timestamp };
    for isolation in [Isolation::ReadUncommitted, Isolation::ReadCommitted] {
        assert_eq!(found(&mut pass, marker.timestamp - 1, isolation)?, Some(last));
        assert_eq!(found(&mut pass, marker.timestamp + 1, isolation)?, None);
    }
    cluster.node(0)?.stop()?;
    assert_eq!(found(&mut pass, 0, Isolation::ReadUncommitted), Err(Refusal::Down.into()));
    Ok(())
}

#[test]
fn a_log_is_segments() -> Done {
    let limits = Limits { segment_bytes: 2 * ONE_RECORD.len() as u32, ..Limits::default() };
    let cluster = Cluster::open(1, limits)?;
    let mut pass = cluster.pass()?;
    assert!(cluster.node(0)?.segments()?.is_empty());
    pass.elect(0)?;
    cluster.node(0)?.adopt()?;
    for _ in 0..5 {
        cluster.node(0)?.produce(&mut pass, ONE_RECORD)?;
    }
    cluster.node(0)?.raise()?;
    let wanted = bytes_read(&cluster, &mut pass, 0)?;
    cluster.node(0)?.stop()?; // its log is there all the same
    let segments: Vec<Segment> = cluster.node(0)?.segments()?.collect::<Result<_, _>>()?;
    let names: Vec<&str> = segments.iter().map(|it| it.name.as_str()).collect();
    assert_eq!(names, ["00000000000000000000.log", "00000000000000000002.log", "00000000000000000004.log"]);
    let files: Vec<Vec<Vec<u8>>> = segments.into_iter().map(|it| it.batches.collect()).collect::<Result<_, _>>()?;
    assert_eq!(files.concat(), wanted);
    assert_eq!(files.iter().map(Vec::len).collect::<Vec<_>>(), [2, 2, 1]);
    Ok(())
}

#[test]
fn messages_tell_whom_they_go_to() -> Done {
    let (cluster, mut pass) = led(3)?;
    let request = cluster.node(2)?.ask()?;
    assert_eq!(request.addressee(), Addressee::Node(0));
    let answer = cluster.node(0)?.step(request)?.ok_or(Error::OutOfRange)?;
    assert_eq!(answer.addressee(), Addressee::Node(2));
    let proposal = cluster.node(0)?.alter(Change::Leave(1))?;
    assert_eq!(proposal.addressee(), Addressee::Controller);
    assert_eq!(pass.decide(proposal)?.addressee(), Addressee::Node(0));
    Ok(())
}

#[test]
fn handles_of_two_clusters_are_told_apart() -> Done {
    let (one, mut pass) = led(2)?;
    let (other, mut stranger) = led(2)?;
    assert_eq!(one.node(0)?.produce(&mut stranger, ONE_RECORD), Err(Error::OtherCluster));
    let receipt = one.node(0)?.produce(&mut pass, ONE_RECORD)?;
    assert_eq!(one.node(0)?.acked(&mut stranger, &receipt), Err(Error::OtherCluster));
    let request = one.node(1)?.ask()?;
    assert_eq!(other.node(0)?.step(request).err(), Some(Error::OtherCluster));
    assert_eq!(one.node(0)?.read_committed(&mut stranger, 0).err(), Some(Error::OtherCluster));
    assert_eq!(one.node(0)?.fetch(&mut stranger, 0, 1, Isolation::ReadCommitted).err(), Some(Error::OtherCluster));
    let proposal = one.node(0)?.alter(Change::Leave(1))?;
    assert_eq!(stranger.decide(proposal).err(), Some(Error::OtherCluster));
    Ok(())
}

#[test]
fn what_there_is_not_is_refused() -> Done {
    assert_eq!(Cluster::open(8, Limits::default()).err(), Some(Error::OutOfRange));
    let (cluster, mut pass) = opened(2)?;
    assert_eq!(cluster.nodes(), 2);
    assert_eq!(cluster.node(2).err(), Some(Error::OutOfRange));
    assert_eq!(pass.watermark(2), Err(Error::OutOfRange));
    assert_eq!(pass.leadership()?, Leadership { version: 0, leader: None, in_sync: [true, true, false, false, false, false, false] });
    assert_eq!(cluster.node(0)?.adopt(), Err(Refusal::StaleRecord.into()));
    assert_eq!(cluster.node(0)?.ask().err(), Some(Refusal::NotLeader.into()));
    assert_eq!(cluster.node(0)?.read(&mut pass, 1).err(), Some(Refusal::OffsetOutOfRange.into()));
    assert!(cluster.node(0)?.read(&mut pass, 0)?.is_empty());
    Ok(())
}

#[test]
fn a_pass_and_batches_outlive_their_cluster() -> Done {
    let (cluster, mut pass) = led(1)?;
    cluster.node(0)?.produce(&mut pass, ONE_RECORD)?;
    cluster.node(0)?.raise()?;
    let mut batches = cluster.node(0)?.read(&mut pass, 0)?;
    drop(cluster);
    assert_eq!(pass.watermark(0)?, 1);
    drop(pass);
    let mut bytes = Vec::new();
    assert_eq!((batches.len(), batches.next_into(&mut bytes)?), (1, true));
    assert_eq!((bytes.len(), batches.next_into(&mut bytes)?), (ONE_RECORD.len(), false));
    Ok(())
}

#[test]
fn a_log_is_described() -> Done {
    let (cluster, mut pass) = led(2)?;
    let mut node = cluster.node(0)?;
    assert_eq!((node.producer(12)?, node.open_transactions()?), (None, vec![]));
    node.produce(&mut pass, TRANSACTION)?;
    let opened = ProducerState { epoch: 0, last_sequence: Some(1), coordinator_epoch: None, open_from: Some(0) };
    assert_eq!(node.producer(12)?, Some(opened));
    assert_eq!(node.open_transactions()?, [OpenTransaction { producer_id: 12, first: 0 }]);
    node.mark(&mut pass, &Marker { producer_id: 12, producer_epoch: 0, coordinator_epoch: 3, timestamp: 2_000, commits: true })?;
    node.produce(&mut pass, ONE_RECORD)?;
    node.produce(&mut pass, ABORTED)?;
    assert_eq!(node.producer(12)?, Some(ProducerState { coordinator_epoch: Some(3), open_from: None, ..opened }));
    assert_eq!(node.open_transactions()?, [OpenTransaction { producer_id: 13, first: 4 }]);
    node.stop()?; // it tells all of that also while it is down
    assert_eq!(node.open_transactions()?.len(), 1);
    let mut log = node.log_from(1, u32::MAX)?;
    let data = BatchHead {
        base: 0,
        epoch: Some(0),
        count: 2,
        size: TRANSACTION.len() as u32,
        base_timestamp: 1_000,
        max_timestamp: 1_000,
        producer: Some((12, 0)),
        base_sequence: Some(0),
        transactional: true,
        control: false,
    };
    assert_eq!((log.head()?, log.len()), (Some(data), 4));
    assert_eq!((log.next().map(|it| it.map(|it| it.len())), log.len()), (Some(Ok(TRANSACTION.len())), 3));
    let marker = log.head()?.expect("three are left");
    assert_eq!((marker.base, marker.count, marker.producer, marker.base_sequence), (2, 1, Some((12, 0)), None));
    assert!(marker.transactional && marker.control && marker.base_timestamp == 2_000);
    log.skip_one();
    let plain = log.head()?.expect("two are left");
    assert_eq!((plain.base, plain.producer, plain.base_sequence, plain.transactional, plain.control), (3, None, None, false, false));
    (0..3).for_each(|_| log.skip_one());
    assert_eq!((log.head()?, log.len()), (None, 0));
    assert_eq!(node.log_from(1, 1)?.len(), 1);
    assert_eq!(node.log_from(5, 1)?.len(), 0);
    assert_eq!(node.log_from(6, 1).err(), Some(Refusal::OffsetOutOfRange.into()));
    Ok(())
}

// What a leader knows, and what goes to and fro until it is known.
#[test]
fn messages_say_what_they_are() -> Done {
    let (cluster, mut pass) = led(2)?;
    cluster.node(0)?.produce(&mut pass, ONE_RECORD)?;
    let unknown = cluster.node(0)?.known()?;
    assert_eq!((unknown.leadership.leader, unknown.proposed, unknown.reported), (Some((0, 0)), None, [None; 7]));
    assert_eq!(cluster.node(1)?.known().err(), Some(Refusal::NotLeader.into()));
    let mut request = cluster.node(1)?.ask()?;
    assert_eq!((request.sender()?, request.said()?), (Addressee::Node(1), Said::AsksFrom { offset: 0, last_epoch: None }));
    let mut answer = cluster.node(0)?.step(request)?.expect("a leader answers");
    assert_eq!((answer.sender()?, answer.said()?), (Addressee::Node(0), Said::Batches { count: 1, watermark: 0 }));
    assert_eq!(cluster.node(0)?.known()?.reported[1], Some(0));
    cluster.node(1)?.step(answer)?;
    let mut proposal = cluster.node(0)?.alter(Change::Leave(1))?;
    let alone = [true, false, false, false, false, false, false];
    assert_eq!((proposal.sender()?, proposal.said()?), (Addressee::Node(0), Said::Proposes { in_sync: alone, version: 1 }));
    assert_eq!(cluster.node(0)?.known()?.proposed, Some(alone));
    let mut decision = pass.decide(proposal)?;
    assert_eq!(
        (decision.sender()?, decision.said()?),
        (Addressee::Controller, Said::Decides { version: 2, epoch: Some(0), in_sync: alone })
    );
    cluster.node(0)?.step(decision)?;
    let known = cluster.node(0)?.known()?;
    assert_eq!((known.leadership.version, known.leadership.in_sync, known.proposed), (2, alone, None));

    pass.elect(0)?;
    cluster.node(0)?.adopt()?;
    cluster.node(0)?.produce(&mut pass, ONE_RECORD)?;
    let late = cluster.node(1)?.ask()?; // in the epoch before
    assert_eq!(cluster.node(0)?.step(late).err(), Some(Refusal::FencedLeaderEpoch.into()));
    cluster.node(1)?.adopt()?;
    let request = cluster.node(1)?.ask()?;
    let mut answer = cluster.node(0)?.step(request)?.expect("a leader answers");
    assert_eq!(answer.said()?, Said::Batches { count: 1, watermark: 0 });
    Ok(())
}

// Here no other test has a recorder.
#[test]
fn a_batch_from_before_the_recorder_ends_the_record() -> Done {
    let mut early = Batch::new(ONE_RECORD)?;
    let script = std::env::temp_dir().join(format!("kpart-early-{}.script", std::process::id()));
    let (cluster, recorder) = Recorder::open(&script, 1, Limits::default()).expect("a script");
    let mut pass = cluster.pass()?;
    pass.elect(0)?;
    cluster.node(0)?.adopt()?;
    let mut late = Batch::new(ONE_RECORD)?;
    cluster.node(0)?.produce_batch(&mut pass, &mut late)?;
    assert_eq!(recorder.flush().expect("it goes on").events, 3);
    cluster.node(0)?.produce_batch(&mut pass, &mut early)?;
    let ended = recorder.stop();
    drop(recorder);
    let text = std::fs::read_to_string(&script).expect("it is there");
    [Recorder::answers_of(&script), script].iter().for_each(|it| std::fs::remove_file(it).expect("it was there"));
    let why = "a batch came that was made before there was a recorder".to_string();
    assert!(text.ends_with(&format!("# the record ends: {why}\n")), "{text}");
    assert_eq!(ended, Err(RecorderFault::NoLine(why)));
    Ok(())
}
