//! A client of Kafka's protocol for the tests, over `kwire`.

#![allow(dead_code)] // each test program takes a part of it

pub mod coordinators;
pub mod program;

use kpart_broker::{Broker, Options, TopicOption};
use kwire::batch::{BatchHead, Batches};
use kwire::fetch::{FetchPartition, FetchRequest, FetchResponse, FetchTopic};
use kwire::frame::{FrameDecoder, LEAST_RESPONSE, read_response_header, request_frame};
use kwire::offsets::list_offsets::{ListOffsetsPartition, ListOffsetsRequest, ListOffsetsResponse, ListOffsetsTopic};
use kwire::produce::{ProducePartition, ProduceRequest, ProduceResponse, ProduceTopic};
use kwire::{Message, Reader, Records, Request, Writer, crc32c};
use std::error::Error;
use std::net::TcpStream;
use std::time::{Duration, Instant};

pub type Fallible<T> = Result<T, Box<dyn Error>>;
pub type Outcome = Fallible<()>;

/// Each wait of a test ends after so long.
pub const LONG: Duration = Duration::from_secs(20);
pub const TOPIC: &str = "events";

pub fn broker() -> Fallible<Broker> {
    Ok(Broker::start(Options::default())?)
}

pub fn broker_of(nodes: u8, partitions: u32) -> Fallible<Broker> {
    let topics = vec![TopicOption { name: TOPIC.to_string(), partitions }];
    Ok(Broker::start(Options { nodes, topics, ..Options::default() })?)
}

/// Tries until it holds, for `LONG` at most.
pub fn until(what: &str, mut holds: impl FnMut() -> bool) -> Outcome {
    let end = Instant::now() + LONG;
    while !holds() {
        if Instant::now() > end {
            return Err(format!("not after {LONG:?}: {what}").into());
        }
        std::thread::sleep(Duration::from_millis(2));
    }
    Ok(())
}

pub struct Client {
    pub stream: TcpStream,
    frames: FrameDecoder,
    next: i32,
}

impl Client {
    pub fn of_port(port: u16) -> Fallible<Client> {
        let stream = TcpStream::connect(("127.0.0.1", port))?;
        stream.set_nodelay(true)?;
        stream.set_read_timeout(Some(LONG))?;
        stream.set_write_timeout(Some(LONG))?;
        Ok(Client { stream, frames: FrameDecoder::new(LEAST_RESPONSE, 64 << 20), next: 0 })
    }

    pub fn of_node(broker: &Broker, node: u8) -> Fallible<Client> {
        Client::of_port(broker.ports()[usize::from(node)])
    }

    pub fn of_leader(broker: &Broker, index: i32) -> Fallible<Client> {
        let mut leader = None;
        until("a leader", || {
            leader = broker.leader(TOPIC, index);
            leader.is_some()
        })?;
        Client::of_node(broker, leader.unwrap_or(0))
    }

    pub fn send<'q>(&mut self, request: &impl Request<'q>, version: i16) -> Fallible<i32> {
        self.next += 1;
        request_frame(request, version, self.next, Some("test"))?.write_to(&mut self.stream)?;
        Ok(self.next)
    }

    /// The next frame without its size; an error where the connection ends.
    pub fn receive(&mut self) -> Fallible<Vec<u8>> {
        loop {
            if let Some(frame) = self.frames.next_frame()? {
                return Ok(frame.to_vec());
            }
            if self.frames.fill_from(&mut self.stream, 64 << 10)? == 0 {
                return Err("the broker has closed the connection".into());
            }
        }
    }

    /// What comes behind the answer's header.
    pub fn answer<'q, Q: Request<'q>>(&mut self, _: &Q, version: i16, correlation_id: i32) -> Fallible<Vec<u8>> {
        let frame = self.receive()?;
        let mut reader = Reader::new(&frame);
        let came = read_response_header(&mut reader, Q::API.response_header(version))?;
        if came != correlation_id {
            return Err(format!("answer {came}, not {correlation_id}").into());
        }
        Ok(frame[reader.position()..].to_vec())
    }

    pub fn ask<'q>(&mut self, request: &impl Request<'q>, version: i16) -> Fallible<Vec<u8>> {
        let number = self.send(request, version)?;
        self.answer(request, version, number)
    }

    /// Code and base offset of a batch that is handed in.
    pub fn produce(&mut self, index: i32, batch: &[u8], acks: i16) -> Fallible<(i16, i64)> {
        let request = produce_request(index, batch, acks);
        let answer = self.ask(&request, 9)?;
        Ok(produced(&answer)?)
    }

    /// The same of a batch of the transaction of this id.
    pub fn produce_in(&mut self, id: &str, index: i32, batch: &[u8]) -> Fallible<(i16, i64)> {
        let answer = self.ask(&ProduceRequest { transactional_id: Some(id), ..produce_request(index, batch, -1) }, 9)?;
        Ok(produced(&answer)?)
    }

    pub fn fetch(&mut self, index: i32, from: i64, isolation_level: i8) -> Fallible<Got> {
        self.fetch_of(index, &Ask { from, isolation_level, ..Ask::default() })
    }

    pub fn fetch_of(&mut self, index: i32, ask: &Ask) -> Fallible<Got> {
        let partition = FetchPartition {
            partition: index,
            current_leader_epoch: ask.epoch,
            fetch_offset: ask.from,
            partition_max_bytes: ask.most,
            ..FetchPartition::default()
        };
        let request = FetchRequest {
            max_wait_ms: ask.wait_ms,
            min_bytes: ask.least,
            isolation_level: ask.isolation_level,
            session_id: ask.session,
            session_epoch: 0,
            topics: vec![FetchTopic { topic: TOPIC, partitions: vec![partition] }],
            ..FetchRequest::default()
        };
        let answer = self.ask(&request, 12)?;
        let response = FetchResponse::decode(&mut Reader::new(&answer), 12)?;
        let Some(it) = response.responses.first().and_then(|it| it.partitions.first()) else {
            return Ok(Got { code: response.error_code, ..Got::default() });
        };
        let aborted = it.aborted_transactions.iter().flatten().map(|it| (it.producer_id, it.first_offset)).collect();
        Ok(Got {
            code: it.error_code,
            watermark: it.high_watermark,
            stable: it.last_stable_offset,
            aborted,
            bytes: it.records.whole().unwrap_or_default().to_vec(),
        })
    }

    /// All that a consumer reads from the start, up to this offset.
    pub fn read_to(&mut self, index: i32, end: i64, isolation_level: i8) -> Fallible<Vec<(i64, String)>> {
        let (mut all, mut from) = (Vec::new(), 0);
        let limit = Instant::now() + LONG;
        while from < end {
            let got = self.fetch_of(index, &Ask { from, isolation_level, wait_ms: 500, ..Ask::default() })?;
            if got.code != 0 || Instant::now() > limit {
                return Err(format!("code {} at {from}", got.code).into());
            }
            all.extend(got.visible()?.into_iter().filter(|it| it.0 >= from));
            from = got.next()?.unwrap_or(from);
        }
        Ok(all)
    }

    /// Code, offset, timestamp and epoch.
    pub fn list(&mut self, index: i32, timestamp: i64, isolation_level: i8) -> Fallible<(i16, i64, i64, i32)> {
        self.list_at(6, index, timestamp, isolation_level)
    }

    /// The same at another version.
    pub fn list_at(&mut self, version: i16, index: i32, timestamp: i64, isolation_level: i8) -> Fallible<(i16, i64, i64, i32)> {
        let partition = ListOffsetsPartition { partition_index: index, current_leader_epoch: -1, timestamp };
        let topics = vec![ListOffsetsTopic { name: TOPIC, partitions: vec![partition] }];
        let request = ListOffsetsRequest { isolation_level, topics, ..ListOffsetsRequest::default() };
        let answer = self.ask(&request, version)?;
        let response = ListOffsetsResponse::decode(&mut Reader::new(&answer), version)?;
        let it = &response.topics[0].partitions[0];
        Ok((it.error_code, it.offset, it.timestamp, it.leader_epoch))
    }
}

/// What a fetch asks for.
pub struct Ask {
    pub from: i64,
    pub isolation_level: i8,
    pub epoch: i32,
    pub most: i32,
    pub least: i32,
    pub wait_ms: i32,
    pub session: i32,
}

impl Default for Ask {
    fn default() -> Ask {
        Ask { from: 0, isolation_level: 0, epoch: -1, most: 1 << 20, least: 1, wait_ms: 0, session: 0 }
    }
}

/// What a fetch gave.
#[derive(Debug, Default)]
pub struct Got {
    pub code: i16,
    pub watermark: i64,
    pub stable: i64,
    pub aborted: Vec<(i64, i64)>,
    pub bytes: Vec<u8>,
}

impl Got {
    pub fn heads(&self) -> Fallible<Vec<BatchHead>> {
        Ok(Batches::new(&self.bytes).map(|it| it.map(|it| it.0)).collect::<Result<_, _>>()?)
    }

    /// The offset behind the last batch.
    pub fn next(&self) -> Fallible<Option<i64>> {
        Ok(self.heads()?.last().and_then(BatchHead::last_offset).map(|it| it + 1))
    }

    /// All records of batches that aren't markers.
    pub fn values(&self) -> Fallible<Vec<(i64, String)>> {
        let mut all = Vec::new();
        for it in Batches::new(&self.bytes) {
            let (head, batch) = it?;
            if !head.is_control() {
                all.extend(records(&head, batch)?);
            }
        }
        Ok(all)
    }

    /// What a client shows that filters as KIP-98 says.
    pub fn visible(&self) -> Fallible<Vec<(i64, String)>> {
        let (mut all, mut open) = (Vec::new(), Vec::new());
        let mut aborted = self.aborted.clone();
        aborted.sort_by_key(|it| it.1);
        for it in Batches::new(&self.bytes) {
            let (head, batch) = it?;
            let last = head.last_offset().unwrap_or(head.base_offset);
            open.extend(aborted.iter().filter(|it| it.1 <= last).map(|it| it.0));
            aborted.retain(|it| it.1 > last);
            if head.is_control() {
                open.retain(|it| *it != head.producer_id);
            } else if !(head.is_transactional() && open.contains(&head.producer_id)) {
                all.extend(records(&head, batch)?);
            }
        }
        Ok(all)
    }
}

/// Offsets and values of a batch's records.
pub fn records(head: &BatchHead, batch: &[u8]) -> Fallible<Vec<(i64, String)>> {
    let mut reader = Reader::new(&batch[kwire::batch::HEAD..]);
    let mut all = Vec::new();
    for _ in 0..head.record_count {
        let size = usize::try_from(reader.varint()?)?;
        let mut record = Reader::new(reader.take(size)?);
        let (_attributes, _time) = (record.i8()?, record.varlong()?);
        let offset = head.base_offset + i64::from(record.varint()?);
        let key = record.varint()?;
        record.take(usize::try_from(key.max(0))?)?;
        let length = usize::try_from(record.varint()?)?;
        all.push((offset, String::from_utf8(record.take(length)?.to_vec())?));
    }
    Ok(all)
}

pub fn produced(answer: &[u8]) -> Result<(i16, i64), kwire::WireError> {
    let response = ProduceResponse::decode(&mut Reader::new(answer), 9)?;
    let it = &response.responses[0].partition_responses[0];
    Ok((it.error_code, it.base_offset))
}

pub fn produce_request(index: i32, batch: &[u8], acks: i16) -> ProduceRequest<'_> {
    let partition_data = vec![ProducePartition { index, records: Records::Whole(batch) }];
    let topic_data = vec![ProduceTopic { name: TOPIC, partition_data }];
    ProduceRequest { transactional_id: None, acks, timeout_ms: 10_000, topic_data }
}

/// Who writes a batch: id, epoch, first sequence number.
#[derive(Clone, Copy)]
pub struct Writes {
    pub producer: (i64, i16),
    pub sequence: i32,
    pub transactional: bool,
}

pub const NOBODY: Writes = Writes { producer: (-1, -1), sequence: -1, transactional: false };

/// A batch as a client writes it; each record's time is a millisecond later.
pub fn batch(values: &[&str], writes: Writes, time: i64) -> Vec<u8> {
    let mut body = Writer::new();
    for (delta, value) in (0..).zip(values) {
        let mut record = Writer::new();
        record.i8(0);
        record.varlong(i64::from(delta));
        record.varint(delta);
        record.varint(-1);
        record.varint(value.len() as i32);
        record.raw(value.as_bytes());
        record.varint(0);
        body.varint(record.len() as i32);
        body.raw(&record.finish().to_vec());
    }
    let last = values.len() as i32 - 1;
    let mut summed = Writer::new();
    summed.i16(if writes.transactional { 16 } else { 0 });
    summed.i32(last);
    summed.i64(time);
    summed.i64(time + i64::from(last));
    summed.i64(writes.producer.0);
    summed.i16(writes.producer.1);
    summed.i32(writes.sequence);
    summed.i32(values.len() as i32);
    summed.raw(&body.finish().to_vec());
    let summed = summed.finish().to_vec();
    let mut out = Writer::new();
    out.i64(0);
    out.i32(summed.len() as i32 + 9);
    out.i32(-1);
    out.i8(2);
    out.u32(crc32c(&summed));
    out.raw(&summed);
    out.finish().to_vec()
}
