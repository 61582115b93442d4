//! Produce: the reading thread appends, replicates and, where all is committed by that, answers. Else the answering thread waits.

use crate::codes::code;
use crate::connection::Header;
use crate::hub::Hub;
use crate::partition::{Partition, Waited, led_epoch};
use crate::reply::{Answered, Close, Passes, Reply};
use crate::{lock, requests};
use kpart::{Ack, Batch, Pass, Receipt};
use kwire::batch::{BatchHead, mended};
use kwire::produce::{ProduceRequest, ProduceResponse, ProducedPartition, ProducedTopic};
use kwire::{ErrorCode, Message, Reader, api};
use std::collections::HashMap;
use std::sync::Mutex;
use std::sync::atomic::Ordering::SeqCst;
use std::time::{Duration, Instant};

/// The longest that a producer may have its answer wait.
const LONGEST: i32 = 600_000;

/// How soon a batch that was taken is asked for again, where there was no memory to do so.
const RETRY: Duration = Duration::from_millis(1);

/// What a connection's two threads share of its producer.
pub struct Producer {
    /// The passes to which its receipts come, by partition.
    passes: Vec<Mutex<Option<Pass>>>,
    /// The leader epoch in which it was last told that the node doesn't lead any more, by partition.
    refused: Mutex<HashMap<usize, u32>>,
}

impl Producer {
    /// With no pass yet.
    pub fn new(hub: &Hub) -> Producer {
        Producer { passes: hub.partitions.iter().map(|_| Mutex::default()).collect(), refused: Mutex::default() }
    }

    /// Notes that it was told that the node doesn't lead this epoch any more.
    fn refuse(&self, place: usize, epoch: u32) {
        lock(&self.refused).insert(place, epoch);
    }

    /// Whether it was told so: what it handed in later in that epoch isn't acknowledged either, as it is in Kafka. Else an idempotent
    /// producer would have batches acknowledged out of their order.
    fn is_refused(&self, taken: &Taken) -> bool {
        taken.epoch.is_some_and(|epoch| lock(&self.refused).get(&taken.place).is_some_and(|it| epoch <= *it))
    }

    /// Whether the node knows that the batch is committed.
    fn is_committed(&self, partition: &Partition, node: u8, taken: &Taken) -> bool {
        let Some(slot) = self.passes.get(taken.place) else { return false };
        let mut slot = lock(slot);
        let Some(pass) = &mut *slot else { return false };
        partition.cluster.node(node).and_then(|mut it| it.acked(pass, &taken.receipt)) == Ok(Ack::Yes)
    }
}

/// A Produce whose batches were handed in.
pub struct Produced {
    /// The request's header.
    pub header: Header,
    acks: i16,
    until: Instant,
    topics: Vec<(String, Vec<Part>)>,
}

/// What became of a batch: that it was taken, or the code that is answered.
struct Part {
    index: i32,
    came: Result<Taken, i16>,
}

/// A batch that the node has taken.
struct Taken {
    /// The partition's place.
    place: usize,
    receipt: Receipt,
    /// The leader epoch in which it was handed in. That of a duplicate's receipt may be an earlier one.
    epoch: Option<u32>,
    /// The node has said that it is committed.
    is_committed: bool,
}

/// Hands all batches of a Produce in.
pub fn append(
    hub: &Hub,
    node: u8,
    producer: &Producer,
    batch: &mut Option<Batch>,
    header: Header,
    reader: &mut Reader<'_>,
) -> Result<Produced, Close> {
    requests::check_version(header.key, header.version)?;
    let request = ProduceRequest::decode(reader, header.version)?;
    let failing = hub.failure(api::PRODUCE.key);
    let mut topics = Vec::with_capacity(request.topic_data.len());
    for topic in &request.topic_data {
        let mut parts = Vec::with_capacity(topic.partition_data.len());
        for it in &topic.partition_data {
            let came = match failing {
                Some(code) => Err(code),
                None => {
                    let bytes = it.records.whole().unwrap_or_default();
                    let wanted = Wanted { node, acks: request.acks, id: request.transactional_id, at: (topic.name, it.index) };
                    append_one(hub, producer, batch, &wanted, bytes).map_err(i16::from)
                }
            };
            parts.push(Part { index: it.index, came });
        }
        topics.push((topic.name.to_string(), parts));
    }
    let wait = Duration::from_millis(u64::from(request.timeout_ms.clamp(1, LONGEST).unsigned_abs()));
    Ok(Produced { header, acks: request.acks, until: header.came + wait, topics })
}

/// What a Produce says beside the batch.
struct Wanted<'a> {
    node: u8,
    acks: i16,
    /// The transactional id.
    id: Option<&'a str>,
    /// Topic and partition.
    at: (&'a str, i32),
}

/// Hands one batch to the node, which says whether it takes it.
fn append_one(hub: &Hub, producer: &Producer, batch: &mut Option<Batch>, wanted: &Wanted<'_>, bytes: &[u8]) -> Result<Taken, ErrorCode> {
    let (node, acks) = (wanted.node, wanted.acks);
    if !(-1..=1).contains(&acks) {
        return Err(ErrorCode::InvalidRequiredAcks);
    }
    let place = hub.find(wanted.at.0, wanted.at.1)?;
    check_added(hub, wanted.id, place, bytes)?;
    let (Some(partition), Some(slot)) = (hub.partitions.get(place), producer.passes.get(place)) else {
        return Err(ErrorCode::UnknownTopicOrPartition);
    };
    let batch = handed(batch, bytes)?;
    let mut slot = lock(slot);
    let pass = match &mut *slot {
        Some(pass) => pass,
        empty => empty.insert(partition.cluster.pass().map_err(code)?),
    };
    check_in_sync(hub, pass, acks)?;
    let receipt = partition.cluster.node(node).and_then(|mut it| it.produce_batch(pass, batch)).map_err(code)?;
    drop(slot);
    hub.counts.batches.fetch_add(1, SeqCst);
    hub.counts.duplicates.fetch_add(receipt.duplicate.into(), SeqCst);
    let epoch = match receipt.duplicate {
        true => led(partition, node)?,
        false => Some(receipt.epoch),
    };
    Ok(Taken { place, receipt, epoch, is_committed: false })
}

/// The leader epoch in which the node leads. Where there is no memory to ask it, nothing is said that isn't so of a batch that is there.
fn led(partition: &Partition, node: u8) -> Result<Option<u32>, ErrorCode> {
    match partition.state(node) {
        Ok(state) => Ok(led_epoch(&state)),
        Err(error) if error.is_memory() => Err(ErrorCode::RequestTimedOut),
        Err(_) => Ok(None),
    }
}

/// Has the followers take what was appended. Whether all is known by that for which the producer waits.
pub fn replicate(hub: &Hub, node: u8, producer: &Producer, produced: &mut Produced) -> bool {
    let mut is_known = true;
    for taken in produced.topics.iter_mut().flat_map(|it| &mut it.1).filter_map(|it| it.came.as_mut().ok()) {
        let Some(partition) = hub.partitions.get(taken.place) else { continue };
        partition.replicate(node);
        if produced.acks == -1 {
            taken.is_committed = producer.is_committed(partition, node, taken);
            is_known &= taken.is_committed;
        }
    }
    is_known
}

/// The bytes as the library's batch, whose memory is used again. A batch of the kind that sarama writes is mended first.
fn handed<'b>(batch: &'b mut Option<Batch>, bytes: &[u8]) -> Result<&'b mut Batch, ErrorCode> {
    let mended = mended(bytes);
    let bytes = mended.as_deref().unwrap_or(bytes);
    match batch {
        Some(it) => {
            it.set(bytes).map_err(code)?;
            Ok(it)
        }
        empty => Ok(empty.insert(Batch::new(bytes).map_err(code)?)),
    }
}

/// What belongs to a transaction goes only to partitions that were added to it, so that something ends it there. Of bytes that are no batch
/// the library says what is wrong.
fn check_added(hub: &Hub, id: Option<&str>, place: usize, bytes: &[u8]) -> Result<(), ErrorCode> {
    match BatchHead::read(bytes) {
        Ok(head) if head.is_transactional() && !head.is_control() => {
            hub.transactions.check_added(id, (head.producer_id, head.producer_epoch), place)
        }
        _ => Ok(()),
    }
}

/// Kafka's `min.insync.replicas`, which acks all ask for.
fn check_in_sync(hub: &Hub, pass: &mut Pass, acks: i16) -> Result<(), ErrorCode> {
    if acks != -1 || hub.options.min_insync <= 1 {
        return Ok(());
    }
    let record = pass.leadership().map_err(code)?;
    let count = record.in_sync.iter().filter(|it| **it).count();
    if count < usize::from(hub.options.min_insync) { Err(ErrorCode::NotEnoughReplicas) } else { Ok(()) }
}

/// Waits as the producer's acks say, and answers.
pub fn answer(
    hub: &Hub,
    node: u8,
    producer: &Producer,
    passes: &mut Passes,
    produced: &Produced,
    is_off: &dyn Fn() -> bool,
    reply: Reply<'_>,
) -> Result<Answered, Close> {
    let mut responses = Vec::with_capacity(produced.topics.len());
    let mut is_refused = false;
    for (name, parts) in &produced.topics {
        let mut partition_responses = Vec::with_capacity(parts.len());
        for part in parts {
            let became = became(hub, producer, passes, produced, part, (node, is_off))?;
            is_refused |= became.is_err();
            partition_responses.push(ProducedPartition {
                index: part.index,
                error_code: became.err().unwrap_or_default(),
                base_offset: became.unwrap_or(-1),
                log_start_offset: if became.is_ok() { 0 } else { -1 },
                ..ProducedPartition::default()
            });
        }
        responses.push(ProducedTopic { name, partition_responses });
    }
    if produced.acks == 0 {
        // Nobody is told otherwise.
        return if is_refused { Err(Close::because("a batch of acks 0 was refused")) } else { Ok(reply.spared()) };
    }
    hub.wait_released(node, is_off);
    if is_off() {
        return Err(Close::Quiet);
    }
    reply.send(&ProduceResponse { responses, throttle_time_ms: 0 })
}

/// The offset that the producer is told, or the code.
fn became(
    hub: &Hub,
    producer: &Producer,
    passes: &mut Passes,
    produced: &Produced,
    part: &Part,
    (node, is_off): (u8, &dyn Fn() -> bool),
) -> Result<Result<i64, i16>, Close> {
    let taken = match &part.came {
        Ok(taken) => taken,
        Err(code) => return Ok(Err(*code)),
    };
    let base = i64::try_from(taken.receipt.base).unwrap_or(-1);
    let Some(partition) = hub.partitions.get(taken.place).filter(|_| produced.acks == -1) else { return Ok(Ok(base)) };
    let not_leader = ErrorCode::NotLeaderOrFollower;
    if producer.is_refused(taken) {
        return Ok(Err(not_leader.into()));
    }
    if taken.is_committed {
        return Ok(Ok(base));
    }
    let waited = loop {
        match taken_over(hub, producer, passes, taken.place) {
            Ok(pass) => break partition.wait_acked(pass, node, (&taken.receipt, taken.epoch), produced.until, is_off),
            Err(_) if is_off() => break Waited::Down,
            Err(_) if Instant::now() > produced.until => break Waited::Failed(ErrorCode::RequestTimedOut),
            Err(_) => std::thread::sleep(RETRY), // there was no memory for it
        }
    };
    match waited {
        Waited::Committed => Ok(Ok(base)),
        Waited::Failed(code) => {
            if let Some(epoch) = taken.epoch.filter(|_| code == not_leader) {
                producer.refuse(taken.place, epoch);
            }
            Ok(Err(code.into()))
        }
        Waited::Down => Err(Close::Quiet),
    }
}

/// The answering thread's pass, with the receipts of the reading thread's, which goes on meanwhile.
fn taken_over<'p>(hub: &Hub, producer: &Producer, passes: &'p mut Passes, place: usize) -> Result<&'p mut Pass, ErrorCode> {
    let pass = passes.of(hub, place)?;
    let slot = producer.passes.get(place).ok_or(ErrorCode::UnknownTopicOrPartition)?;
    if let Some(from) = &mut *lock(slot) {
        pass.take_receipts(from).map_err(code)?;
    }
    Ok(pass)
}
