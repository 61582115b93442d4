//! Fetch: committed batches for a consumer, of one moment for each partition.

use crate::codes::code;
use crate::partition::check_epoch;
use crate::reply::{Answered, Call, Close, Reply};
use kpart::{Fetched, Isolation};
use kwire::fetch::{AbortedTransaction, FetchPartition, FetchRequest, FetchResponse, FetchedPartition, FetchedTopic};
use kwire::{ErrorCode, Records};
use std::time::{Duration, Instant};

/// The longest that a consumer may have its answer wait.
const LONGEST: i32 = 60_000;
/// The most bytes of an answer, but for a first batch that is longer.
const MOST: usize = 16 << 20;

/// What a partition gives.
struct Piece {
    watermark: i64,
    stable: i64,
    aborted: Vec<AbortedTransaction>,
    bytes: Vec<u8>,
}

/// By topic and partition, in the request's order.
type Pieces<'a> = Vec<(&'a str, Vec<(i32, Result<Piece, i16>)>)>;

fn offset(number: u64) -> i64 {
    i64::try_from(number).unwrap_or(i64::MAX)
}

/// Which isolation level a request asks for.
pub fn isolation(level: i8) -> Isolation {
    if level == 1 { Isolation::ReadCommitted } else { Isolation::ReadUncommitted }
}

/// Answers once there are as many bytes as the consumer wants, or something is wrong, or it is time.
pub fn fetch(call: &mut Call<'_>, request: &FetchRequest<'_>, reply: Reply<'_>) -> Result<Answered, Close> {
    if let Err(error_code) = check(call, request) {
        return reply.send(&FetchResponse { error_code, ..FetchResponse::default() });
    }
    let wait = Duration::from_millis(u64::from(request.max_wait_ms.clamp(0, LONGEST).unsigned_abs()));
    let until = Instant::now() + wait;
    let least = usize::try_from(request.min_bytes).unwrap_or(0);
    let pieces = loop {
        let count = call.hub.news.count();
        let pieces = read(call, request);
        if is_enough(&pieces, least) || Instant::now() >= until {
            break pieces;
        }
        if call.is_off() {
            return Err(Close::Quiet);
        }
        call.hub.news.wait(count, until);
    };
    let is_isolated = request.isolation_level == 1;
    let responses = pieces.iter().map(|(topic, parts)| FetchedTopic {
        topic,
        partitions: parts.iter().map(|(index, found)| fetched(*index, found, is_isolated)).collect(),
    });
    reply.send(&FetchResponse { responses: responses.collect(), ..FetchResponse::default() })
}

/// There are no sessions: a client that asks for one gets none, and one that has one is told that it isn't there.
fn check(call: &Call<'_>, request: &FetchRequest<'_>) -> Result<(), i16> {
    call.check_failing()?;
    match request {
        FetchRequest { session_id: 1.., .. } => Err(ErrorCode::FetchSessionIdNotFound.into()),
        FetchRequest { replica_id: 0.., .. } => Err(ErrorCode::InvalidRequest.into()),
        _ => Ok(()),
    }
}

fn is_enough(pieces: &Pieces<'_>, least: usize) -> bool {
    let all = || pieces.iter().flat_map(|it| &it.1).map(|it| &it.1);
    all().any(Result::is_err) || all().flatten().map(|it| it.bytes.len()).sum::<usize>() >= least
}

/// What all partitions give, up to the bytes of one answer.
fn read<'a>(call: &mut Call<'_>, request: &FetchRequest<'a>) -> Pieces<'a> {
    let mut left = usize::try_from(request.max_bytes).unwrap_or(0).min(MOST);
    let mut is_first = true;
    let mut pieces = Vec::with_capacity(request.topics.len());
    for topic in &request.topics {
        let mut parts = Vec::with_capacity(topic.partitions.len());
        for asked in &topic.partitions {
            let found = piece(call, topic.topic, asked, isolation(request.isolation_level), left, is_first);
            if let Ok(piece) = &found {
                is_first &= piece.bytes.is_empty();
                left = left.saturating_sub(piece.bytes.len());
            }
            parts.push((asked.partition, found.map_err(i16::from)));
        }
        pieces.push((topic.topic, parts));
    }
    pieces
}

/// What one partition gives. The first batch of an answer comes whole; another one that is too long waits for the next answer (KIP-74).
fn piece(
    call: &mut Call<'_>,
    topic: &str,
    asked: &FetchPartition,
    isolation: Isolation,
    left: usize,
    is_first: bool,
) -> Result<Piece, ErrorCode> {
    let place = call.hub.find(topic, asked.partition)?;
    let from = u64::try_from(asked.fetch_offset).map_err(|_| ErrorCode::OffsetOutOfRange)?;
    let most = usize::try_from(asked.partition_max_bytes).unwrap_or(0).min(left);
    let limit = u32::try_from(most).unwrap_or(u32::MAX);
    let partition = call.hub.partitions.get(place).ok_or(ErrorCode::UnknownTopicOrPartition)?;
    let pass = call.passes.of(call.hub, place)?;
    let fetched = {
        let mut node = partition.cluster.node(call.node).map_err(code)?;
        check_epoch(&node.show().map_err(code)?, asked.current_leader_epoch)?;
        node.fetch(pass, from, limit, isolation).map_err(code)?
    };
    let Fetched { mut batches, aborted, watermark, stable, .. } = fetched;
    let mut bytes = Vec::new();
    while (is_first || bytes.len() < most) && batches.append_to(&mut bytes).map_err(code)? {}
    if !is_first && bytes.len() > most {
        bytes.clear();
    }
    let aborted = aborted.iter().map(|it| AbortedTransaction { producer_id: offset(it.producer_id), first_offset: offset(it.first) });
    Ok(Piece { watermark: offset(watermark), stable: offset(stable), aborted: aborted.collect(), bytes })
}

fn fetched<'a>(index: i32, found: &'a Result<Piece, i16>, is_isolated: bool) -> FetchedPartition<'a> {
    match found {
        Ok(piece) => FetchedPartition {
            partition_index: index,
            high_watermark: piece.watermark,
            last_stable_offset: piece.stable,
            log_start_offset: 0,
            aborted_transactions: is_isolated.then(|| piece.aborted.clone()),
            records: Records::Whole(&piece.bytes),
            ..FetchedPartition::default()
        },
        Err(code) => FetchedPartition { partition_index: index, error_code: *code, high_watermark: -1, ..FetchedPartition::default() },
    }
}
