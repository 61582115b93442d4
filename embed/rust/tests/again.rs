//! A cluster that is opened again by a host that keeps logs, states and the record itself.

mod made;

use kpart::{Ack, Change, Cluster, Error, Kept, Leadership, Left, Limits, Pass, Promise, Receipt, Refusal, Role, Status};
use made::batch;

type Done = Result<(), Error>;

// What is kept of a node: its log's bytes, and its state.
type Node = (Vec<u8>, Kept);

fn put(cluster: &Cluster, pass: &mut Pass, leader: u8, sequence: i32) -> Result<Receipt, Error> {
    cluster.node(leader)?.produce(pass, &batch(Some((7, sequence)), &[b"value"]))
}

fn replicate(cluster: &Cluster, leader: u8, follower: u8) -> Done {
    for _ in 0..3 {
        let request = cluster.node(follower)?.ask()?;
        let answer = cluster.node(leader)?.step(request)?.expect("a leader answers");
        cluster.node(follower)?.step(answer)?;
    }
    Ok(())
}

fn kept(cluster: &Cluster, node: u8) -> Result<Node, Error> {
    let (mut node, mut log) = (cluster.node(node)?, Vec::new());
    let mut batches = node.log_from(0, u32::MAX)?;
    while batches.append_to(&mut log)? {}
    Ok((log, Kept::from(&node.show()?)))
}

// Node 0 leads; two batches are acknowledged, and a third one is at node 0 alone.
fn left() -> Result<(Leadership, [Node; 2]), Error> {
    let cluster = Cluster::open(2, Limits::default())?;
    let mut pass = cluster.pass()?;
    pass.elect(0)?;
    (0..2).try_for_each(|it| cluster.node(it)?.adopt().map(drop))?;
    let receipts = [put(&cluster, &mut pass, 0, 0)?, put(&cluster, &mut pass, 0, 1)?];
    replicate(&cluster, 0, 1)?;
    cluster.node(0)?.raise()?;
    for receipt in &receipts {
        assert_eq!(cluster.node(0)?.acked(&mut pass, receipt)?, Ack::Yes);
    }
    replicate(&cluster, 0, 1)?;
    assert_eq!(cluster.node(1)?.checkpoint()?, 2);
    put(&cluster, &mut pass, 0, 2)?;
    Ok((pass.leadership()?, [kept(&cluster, 0)?, kept(&cluster, 1)?]))
}

fn read_back(nodes: &[Node]) -> Result<Left, Error> {
    let mut left = Left::new(Limits::default())?;
    nodes.iter().try_for_each(|(log, kept)| left.keep(log, *kept))?;
    Ok(left)
}

fn opened(left: Left, leadership: &Leadership, promise: Promise) -> Result<Cluster, Error> {
    // SAFETY: `left` has left this.
    unsafe { Cluster::open_again(left, leadership, promise) }
}

#[test]
fn what_a_process_has_left_goes_on() -> Done {
    let (record, nodes) = left()?;
    assert_eq!(nodes.each_ref().map(|it| (it.1.checkpoint, it.1.life, it.1.kept_epoch)), [(0, 0, Some(0)), (2, 0, Some(0))]);
    let cluster = opened(read_back(&nodes)?, &record, Promise { node: 0, offset: 2 })?;
    assert_eq!(cluster.nodes(), 2);
    let mut pass = cluster.pass()?;
    assert_eq!(pass.leadership()?, record);
    for (number, end) in [(0, 3), (1, 2)] {
        let state = cluster.node(number)?.show()?;
        let (log, Kept { checkpoint, .. }) = &nodes[usize::from(number)];
        assert_eq!((state.status, state.life, state.end), (Status::Down, 1, end));
        assert_eq!((state.checkpoint, state.watermark, state.kept_epoch), (*checkpoint, *checkpoint, Some(0)));
        assert_eq!(&kept(&cluster, number)?.0, log);
        assert_eq!(cluster.node(number)?.restart()?.life, 2);
    }
    Ok(())
}

#[test]
fn who_led_is_elected_anew() -> Done {
    let (record, nodes) = left()?;
    let cluster = opened(read_back(&nodes)?, &record, Promise { node: 0, offset: 2 })?;
    let mut pass = cluster.pass()?;
    pass.recall()?;
    (0..2).try_for_each(|it| cluster.node(it)?.restart().map(drop))?;
    assert_eq!(cluster.node(0)?.adopt(), Err(Refusal::StaleRecord.into()));
    assert_eq!(pass.elect(1)?, record.elected(1)?);
    assert_eq!(cluster.node(1)?.adopt()?, Role::Leads { epoch: 1, start: 2 });
    assert_eq!(cluster.node(0)?.adopt()?, Role::Follows { leader: 1, epoch: 1 });
    assert!(put(&cluster, &mut pass, 1, 1)?.duplicate);
    assert_eq!(put(&cluster, &mut pass, 1, 3), Err(Refusal::OutOfOrderSequence.into()));
    let receipt = put(&cluster, &mut pass, 1, 2)?;
    assert_eq!((receipt.base, receipt.epoch, receipt.duplicate), (2, 1, false));
    replicate(&cluster, 1, 0)?;
    assert_eq!(cluster.node(1)?.raise()?, 3);
    assert_eq!(cluster.node(1)?.acked(&mut pass, &receipt)?, Ack::Yes);
    assert_eq!(kept(&cluster, 0)?.0, kept(&cluster, 1)?.0);
    Ok(())
}

#[test]
fn what_cannot_be_read_back_is_refused() -> Done {
    let (_, [(log, state), _]) = left()?;
    let size = log.len() / 3;
    let mut left = Left::new(Limits::default())?;
    let mut flipped = log.clone();
    flipped[size - 1] ^= 1;
    let mut back = log.clone();
    back[12..16].copy_from_slice(&1_u32.to_be_bytes()); // the first one's leader epoch
    for (bytes, state, refusal) in [
        (&log[..10], state, Refusal::Truncated),
        (&flipped[..], state, Refusal::BadCrc),
        (&log[size..], state, Refusal::NotNext),
        (&back[..], state, Refusal::EpochBack),
        (&log[..], Kept { checkpoint: 4, ..state }, Refusal::NotBoundary),
        (&log[..], Kept { life: u64::MAX, ..state }, Refusal::RecordFull),
    ] {
        assert_eq!(left.keep(bytes, state), Err(refusal.into()), "{refusal}");
        assert_eq!(left.nodes(), 0);
    }
    for number in 0..7 {
        assert_eq!(left.nodes(), number);
        left.keep(&[], Kept::default())?;
    }
    assert_eq!(left.keep(&[], Kept::default()), Err(Error::OutOfRange));
    let small = Limits { max_batch: size as u32 - 1, ..Limits::default() };
    assert_eq!(Left::new(small)?.keep(&log, state), Err(Refusal::TooLarge.into()));
    Ok(())
}

#[test]
fn what_is_no_record_is_refused() -> Done {
    let (record, nodes) = left()?;
    let none = Leadership { version: 1 << 28, ..record };
    assert_eq!(opened(read_back(&nodes)?, &none, Promise::default()).err(), Some(Error::OutOfRange));
    assert_eq!(none.elected(0), Err(Error::OutOfRange));
    assert_eq!(record.elected(2), Err(Refusal::NotInSync.into()));
    let full = Leadership { version: (1 << 28) - 1, ..record };
    assert_eq!(full.elected(0), Err(Refusal::RecordFull.into()));
    Ok(())
}

#[test]
fn a_record_is_known_before_it_is_decided() -> Done {
    let cluster = Cluster::open(2, Limits::default())?;
    let mut pass = cluster.pass()?;
    let elected = pass.leadership()?.elected(0)?;
    assert_eq!(pass.elect(0)?, elected);
    (0..2).try_for_each(|it| cluster.node(it)?.adopt().map(drop))?;
    let mut request = cluster.node(1)?.ask()?;
    assert_eq!(request.decided(&elected), Err(Refusal::StaleAnswer.into()));
    let mut proposal = cluster.node(0)?.alter(Change::Leave(1))?;
    let decided = proposal.decided(&elected)?;
    assert_eq!((decided.version, decided.has_in_sync(1)), (elected.version + 1, false));
    let other = elected.elected(1)?;
    assert_eq!(proposal.decided(&other)?, other); // it isn't the one that the proposal names
    assert_eq!(proposal.decided(&Leadership { version: 1 << 28, ..elected }), Err(Error::OutOfRange));
    pass.decide(proposal)?;
    assert_eq!(pass.leadership()?, decided);
    pass.recall()?; // nothing was promised
    Ok(())
}
