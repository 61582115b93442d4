//! The calls of librdkafka that the service makes. All of its `unsafe` stands here.
//!
//! The signatures are those of `librdkafka/rdkafka.h` 2.0; the crate `rdkafka` has them all, where a registry is at hand.

use crate::Properties;
use std::ffi::{CStr, CString, c_char, c_int, c_void};
use std::marker::{PhantomData, PhantomPinned};
use std::ptr::{self, NonNull};
use std::sync::OnceLock;
use std::time::Duration;
use std::{fmt, io};

/// What the library hands out by pointers, and nobody looks into.
#[repr(C)]
struct Opaque {
    _bytes: [u8; 0],
    _marker: PhantomData<(*mut u8, PhantomPinned)>,
}

/// `rd_kafka_message_t`.
#[repr(C)]
struct RawMessage {
    err: c_int,
    topic: *mut Opaque,
    partition: i32,
    payload: *mut c_void,
    len: usize,
    key: *mut c_void,
    key_len: usize,
    offset: i64,
    private: *mut c_void,
}

type OnDelivery = extern "C" fn(*mut Opaque, *const RawMessage, *mut c_void);

#[link(name = "rdkafka")]
unsafe extern "C" {
    fn rd_kafka_conf_new() -> *mut Opaque;
    fn rd_kafka_conf_set(conf: *mut Opaque, name: *const c_char, value: *const c_char, text: *mut c_char, room: usize) -> c_int;
    fn rd_kafka_conf_set_dr_msg_cb(conf: *mut Opaque, called: OnDelivery);
    fn rd_kafka_conf_destroy(conf: *mut Opaque);
    fn rd_kafka_new(kind: c_int, conf: *mut Opaque, text: *mut c_char, room: usize) -> *mut Opaque;
    fn rd_kafka_destroy(client: *mut Opaque);
    fn rd_kafka_err2str(err: c_int) -> *const c_char;
    fn rd_kafka_last_error() -> c_int;
    fn rd_kafka_topic_new(client: *mut Opaque, name: *const c_char, conf: *mut Opaque) -> *mut Opaque;
    fn rd_kafka_topic_destroy(topic: *mut Opaque);
    fn rd_kafka_produce(
        topic: *mut Opaque,
        partition: i32,
        flags: c_int,
        value: *const c_void,
        len: usize,
        key: *const c_void,
        key_len: usize,
        private: *mut c_void,
    ) -> c_int;
    fn rd_kafka_poll(client: *mut Opaque, ms: c_int) -> c_int;
    fn rd_kafka_poll_set_consumer(client: *mut Opaque) -> c_int;
    fn rd_kafka_topic_partition_list_new(room: c_int) -> *mut Opaque;
    fn rd_kafka_topic_partition_list_add(list: *mut Opaque, topic: *const c_char, partition: i32) -> *mut Opaque;
    fn rd_kafka_topic_partition_list_destroy(list: *mut Opaque);
    fn rd_kafka_subscribe(client: *mut Opaque, topics: *const Opaque) -> c_int;
    fn rd_kafka_consumer_poll(client: *mut Opaque, ms: c_int) -> *mut RawMessage;
    fn rd_kafka_message_destroy(message: *mut RawMessage);
    fn rd_kafka_commit_message(client: *mut Opaque, message: *const RawMessage, is_async: c_int) -> c_int;
}

const PRODUCER: c_int = 0;
const CONSUMER: c_int = 1;
/// The partition is by the key.
const ANY_PARTITION: i32 = -1;
/// The library copies the value.
const COPIES: c_int = 2;

/// What librdkafka, the ledger or the service refuses, in words.
#[derive(Debug)]
pub struct Fault(String);

impl fmt::Display for Fault {
    fn fmt(&self, out: &mut fmt::Formatter<'_>) -> fmt::Result {
        out.write_str(&self.0)
    }
}

impl std::error::Error for Fault {}

impl From<String> for Fault {
    fn from(text: String) -> Fault {
        Fault(text)
    }
}

impl From<io::Error> for Fault {
    fn from(error: io::Error) -> Fault {
        Fault(error.to_string())
    }
}

/// Nothing, or what the code says.
fn checked(err: c_int) -> Result<(), Fault> {
    if err == 0 {
        return Ok(());
    }
    // SAFETY: of any number it is a text that stays.
    Err(Fault(unsafe { CStr::from_ptr(rd_kafka_err2str(err)) }.to_string_lossy().into_owned()))
}

fn text_of(bytes: &[c_char; 512]) -> Fault {
    // SAFETY: the library has put a text with its end into them, or left them zero.
    Fault(unsafe { CStr::from_ptr(bytes.as_ptr()) }.to_string_lossy().into_owned())
}

fn spelled(text: &str) -> Result<CString, Fault> {
    CString::new(text).map_err(|it| Fault(it.to_string()))
}

/// A configuration, until a client has taken it.
struct Conf(NonNull<Opaque>);

impl Conf {
    fn of(properties: &Properties) -> Result<Conf, Fault> {
        // SAFETY: the call has no arguments.
        let conf = Conf(NonNull::new(unsafe { rd_kafka_conf_new() }).ok_or_else(|| Fault("no memory".to_string()))?);
        let mut text = [0; 512];
        for (name, value) in properties {
            let (name, value) = (spelled(name)?, spelled(value)?);
            // SAFETY: the configuration is there, and texts and room outlive the call.
            let set = unsafe { rd_kafka_conf_set(conf.0.as_ptr(), name.as_ptr(), value.as_ptr(), text.as_mut_ptr(), text.len()) };
            if set != 0 {
                return Err(text_of(&text));
            }
        }
        Ok(conf)
    }
}

impl Drop for Conf {
    fn drop(&mut self) {
        // SAFETY: no client has taken it.
        unsafe { rd_kafka_conf_destroy(self.0.as_ptr()) }
    }
}

/// A client, which ends with this.
struct Client(NonNull<Opaque>);

// SAFETY: a client may be used by any thread.
unsafe impl Send for Client {}

impl Client {
    fn open(kind: c_int, properties: &Properties) -> Result<Client, Fault> {
        let (conf, mut text) = (Conf::of(properties)?, [0; 512]);
        // SAFETY: the configuration is there, and the room outlives the call.
        let client = unsafe {
            rd_kafka_conf_set_dr_msg_cb(conf.0.as_ptr(), delivered);
            rd_kafka_new(kind, conf.0.as_ptr(), text.as_mut_ptr(), text.len())
        };
        let client = NonNull::new(client).ok_or_else(|| text_of(&text))?;
        std::mem::forget(conf); // it is the client's
        Ok(Client(client))
    }
}

impl Drop for Client {
    fn drop(&mut self) {
        // SAFETY: nobody has it any more. A consumer leaves its group.
        unsafe { rd_kafka_destroy(self.0.as_ptr()) }
    }
}

/// What became of a message that was sent: 0, or an error.
type Report = OnceLock<c_int>;

/// Is called by `rd_kafka_poll`, once for each message.
extern "C" fn delivered(_: *mut Opaque, message: *const RawMessage, _: *mut c_void) {
    // SAFETY: the message is there meanwhile, and `send` waits with its report for this call.
    let (err, report) = unsafe { ((*message).err, (*message).private.cast::<Report>().as_ref()) };
    let _first = report.map(|it| it.set(err));
}

/// A producer for one topic.
pub struct Producer {
    topic: NonNull<Opaque>,
    client: Client,
}

// SAFETY: so may a topic.
unsafe impl Send for Producer {}

impl Producer {
    /// Connects by and by.
    pub fn open(topic: &str, properties: &Properties) -> Result<Producer, Fault> {
        let (client, name) = (Client::open(PRODUCER, properties)?, spelled(topic)?);
        // SAFETY: the client is there, and the name outlives the call.
        let topic = NonNull::new(unsafe { rd_kafka_topic_new(client.0.as_ptr(), name.as_ptr(), ptr::null_mut()) });
        Ok(Producer { topic: topic.ok_or_else(|| Fault(format!("no topic: {name:?}")))?, client })
    }

    /// Sends a record, and waits for its delivery report, which comes within `message.timeout.ms`.
    pub fn send(&mut self, key: &[u8], value: &[u8]) -> Result<(), Fault> {
        let report = Report::new();
        // SAFETY: the library copies value and key. The report is there until the message's only call of `delivered`.
        unsafe {
            let private = (&raw const report).cast_mut().cast();
            let (value_at, key_at) = (value.as_ptr().cast(), key.as_ptr().cast());
            if rd_kafka_produce(self.topic.as_ptr(), ANY_PARTITION, COPIES, value_at, value.len(), key_at, key.len(), private) != 0 {
                return checked(rd_kafka_last_error());
            }
            while report.get().is_none() {
                rd_kafka_poll(self.client.0.as_ptr(), 100);
            }
        }
        checked(report.get().copied().unwrap_or_default())
    }
}

impl Drop for Producer {
    fn drop(&mut self) {
        // SAFETY: the topic goes before its client.
        unsafe { rd_kafka_topic_destroy(self.topic.as_ptr()) }
    }
}

/// A member of a consumer group.
pub struct Consumer(Client);

impl Consumer {
    /// Joins its group by and by.
    pub fn open(topic: &str, properties: &Properties) -> Result<Consumer, Fault> {
        let (client, name) = (Client::open(CONSUMER, properties)?, spelled(topic)?);
        // SAFETY: the list is freed here, and copied by the client, which is there.
        checked(unsafe {
            rd_kafka_poll_set_consumer(client.0.as_ptr());
            let list = rd_kafka_topic_partition_list_new(1);
            rd_kafka_topic_partition_list_add(list, name.as_ptr(), ANY_PARTITION);
            let err = rd_kafka_subscribe(client.0.as_ptr(), list);
            rd_kafka_topic_partition_list_destroy(list);
            err
        })?;
        Ok(Consumer(client))
    }

    /// The next record, if one comes in this time.
    pub fn poll(&self, most: Duration) -> Option<Record<'_>> {
        let ms = c_int::try_from(most.as_millis()).unwrap_or(c_int::MAX);
        // SAFETY: the client is there; the message is this call's own.
        let message = NonNull::new(unsafe { rd_kafka_consumer_poll(self.0.0.as_ptr(), ms) })?;
        let record = Record { message, _consumer: PhantomData };
        // SAFETY: the message is there. One with an error has none of a record's fields: the client goes on by itself.
        if unsafe { record.message.as_ref() }.err == 0 { Some(record) } else { None }
    }

    /// Commits the offset behind the record, and waits until that is done.
    pub fn commit(&self, record: &Record<'_>) -> Result<(), Fault> {
        // SAFETY: client and message are there.
        checked(unsafe { rd_kafka_commit_message(self.0.0.as_ptr(), record.message.as_ptr(), 0) })
    }
}

/// A record of a consumer, which outlives it.
pub struct Record<'c> {
    message: NonNull<RawMessage>,
    _consumer: PhantomData<&'c Consumer>,
}

impl Record<'_> {
    /// Its value; of null none.
    pub fn value(&self) -> &[u8] {
        // SAFETY: the message is there as long as this, and has so many bytes.
        unsafe {
            let message = self.message.as_ref();
            if message.payload.is_null() { &[] } else { std::slice::from_raw_parts(message.payload.cast(), message.len) }
        }
    }

    /// Its offset.
    pub fn offset(&self) -> i64 {
        // SAFETY: the message is there as long as this.
        unsafe { self.message.as_ref() }.offset
    }
}

impl Drop for Record<'_> {
    fn drop(&mut self) {
        // SAFETY: it is this one's own.
        unsafe { rd_kafka_message_destroy(self.message.as_ptr()) }
    }
}
