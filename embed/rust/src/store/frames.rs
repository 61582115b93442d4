//! The bytes of a journal: a header, and frames, each of which has changes that count together.
//!
//! A frame is its body's length, its number and the CRC-32C of these and the body, then the body. The first one, number 0, has all that there was
//! as the file was put in its place. One without a body, with the number of the frame before it, is a seal: it was written once that frame
//! was on the disk, and the next frame is written over it.

use super::text::BadText;
use crate::ffi::crc32c;
use std::collections::BTreeMap;

/// Keys, and the value of each.
pub(crate) type Entries = BTreeMap<Vec<u8>, Vec<u8>>;

/// How many bytes the header has, and what comes before a frame's body.
pub(crate) const HEAD: usize = 16;
const HEADER: &[u8; HEAD] = b"kpart journal 1\n";

/// The length of a value that isn't there any more.
const REMOVED: u32 = u32::MAX;

const NO_HEADER: &str = "a journal of this kind doesn't begin so";
const NO_FRAME: &str = "no whole entry with a right checksum begins here";
const NOT_LAWFUL: &str = "the entry here has a right checksum, and isn't lawful";

/// A change: a key with its next value, or with none where it goes.
pub(crate) fn put_change(body: &mut Vec<u8>, key: &[u8], value: Option<&[u8]>) {
    put_length(body, key.len());
    body.extend(key);
    match value {
        Some(value) => {
            put_length(body, value.len());
            body.extend(value);
        }
        None => body.extend(REMOVED.to_be_bytes()),
    }
}

fn put_length(out: &mut Vec<u8>, length: usize) {
    out.extend((length as u32).to_be_bytes());
}

/// A frame of that number; none where its body is too long for one.
pub(crate) fn frame(number: u64, body: &[u8]) -> Option<Vec<u8>> {
    let length = u32::try_from(body.len()).ok().filter(|it| *it < REMOVED)?;
    let mut out = Vec::with_capacity(HEAD + body.len());
    out.extend(length.to_be_bytes());
    out.extend(number.to_be_bytes());
    out.extend(sum(&out, body).to_be_bytes());
    out.extend(body);
    Some(out)
}

/// What stands behind the frame of that number once it is on the disk.
pub(crate) fn seal(number: u64) -> Vec<u8> {
    frame(number, &[]).unwrap_or_default()
}

/// A whole file that has just these entries, with its seal; none where they are too long.
pub(crate) fn file_of(entries: &Entries) -> Option<Vec<u8>> {
    let mut body = Vec::new();
    entries.iter().for_each(|(key, value)| put_change(&mut body, key, Some(value)));
    Some([HEADER, frame(0, &body)?.as_slice(), &seal(0)].concat())
}

// The checksum of a frame that has this length and number.
fn sum(head: &[u8], body: &[u8]) -> u32 {
    crc32c(&[&head[..HEAD - 4], body].concat())
}

/// A journal that was read back.
#[derive(Debug, Default)]
pub(crate) struct Found {
    pub entries: Entries,
    /// Of the bytes behind the last whole frame: from which on, and how many. They were being written, and never counted.
    pub torn: Option<(u64, u64)>,
}

// A frame whose checksum is right.
struct Frame<'a> {
    number: u64,
    body: &'a [u8],
}

fn frame_at(bytes: &[u8], at: usize) -> Option<Frame<'_>> {
    let rest = bytes.get(at..)?;
    let (head, rest) = (rest.get(..HEAD)?, &rest[HEAD..]);
    let body = rest.get(..number(&head[..4]) as usize)?;
    let is_right = number(&head[HEAD - 4..]) == u64::from(sum(head, body));
    is_right.then(|| Frame { number: number(&head[4..HEAD - 4]), body })
}

// Of at most eight bytes.
fn number(bytes: &[u8]) -> u64 {
    bytes.iter().fold(0, |sum, byte| sum << 8 | u64::from(*byte))
}

// A frame comes to the disk once the one before is there. So where one that stands behind this place is whole, or the seal of the one that was to
// begin here, that one was on the disk.
fn was_there(bytes: &[u8], at: usize, next: u64) -> bool {
    let most = next + (bytes.len() - at) as u64;
    (at + 1..bytes.len()).any(|it| {
        let head = bytes.get(it + 4..it + HEAD - 4);
        head.is_some_and(|it| (next..most).contains(&number(it))) && frame_at(bytes, it).is_some()
    })
}

/// Reads a journal's bytes. O(n), also where the last frame was torn.
pub(crate) fn read(bytes: &[u8]) -> Result<Found, BadText> {
    let bad = |at: usize, why| BadText { byte: at as u64, why };
    if !bytes.starts_with(HEADER) {
        return Err(bad(0, NO_HEADER));
    }
    let (mut found, mut at, mut next) = (Found::default(), HEAD, 0);
    while at < bytes.len() {
        match frame_at(bytes, at) {
            // Behind a seal lies what the next frame was to be.
            Some(it) if next > 0 && it.number == next - 1 && it.body.is_empty() => {
                at += HEAD;
                break;
            }
            Some(it) if it.number == next => apply(&mut found.entries, it.body).ok_or(bad(at, NOT_LAWFUL))?,
            Some(_) => return Err(bad(at, NOT_LAWFUL)),
            None if was_there(bytes, at, next) => return Err(bad(at, NO_FRAME)),
            None => break,
        }
        at += HEAD + number(&bytes[at..at + 4]) as usize;
        next += 1;
    }
    // The first frame came with the file.
    if next == 0 {
        return Err(bad(at, NO_FRAME));
    }
    found.torn = (at < bytes.len()).then(|| (at as u64, (bytes.len() - at) as u64));
    Ok(found)
}

// Does all changes of a body; none where it has something else.
fn apply(entries: &mut Entries, body: &[u8]) -> Option<()> {
    let mut rest = body;
    while !rest.is_empty() {
        let key = taken(&mut rest)??;
        match taken(&mut rest)? {
            Some(value) => entries.insert(key.to_vec(), value.to_vec()),
            None => entries.remove(key),
        };
    }
    Some(())
}

// The next bytes with their length before them: none where they aren't whole, and of those `None` where they are said to be gone.
fn taken<'a>(rest: &mut &'a [u8]) -> Option<Option<&'a [u8]>> {
    let (length, behind) = rest.split_first_chunk::<4>()?;
    *rest = behind;
    let length = u32::from_be_bytes(*length);
    if length == REMOVED {
        return Some(None);
    }
    let (bytes, behind) = rest.split_at_checked(length as usize)?;
    *rest = behind;
    Some(Some(bytes))
}
