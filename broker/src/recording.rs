//! Records: what each partition's nodes and its controller were asked and answered, as scripts that `kpart run` plays again.

use crate::broker::Fault;
use crate::hub::Hub;
use crate::options::Options;
use crate::partition::LIMITS;
use kpart::{Cluster, Limits, Recorded, Recorder, RecorderFault};
use std::fmt::Write as _;
use std::io::Write as _;
use std::path::{Path, PathBuf};
use std::sync::atomic::{AtomicBool, Ordering::SeqCst};

/// Of a script, and so of what is recorded.
const MAX_RECORDED: u32 = 1_048_576;

/// A partition's script, which is being written.
#[derive(Debug)]
pub struct Script {
    /// Where it stands.
    pub path: PathBuf,
    recorder: Recorder,
    is_over: AtomicBool,
}

/// Where a partition's script stands in the folder.
fn script_of(folder: &Path, topic: &str, index: i32) -> PathBuf {
    folder.join(format!("{topic}-{index}.script"))
}

/// The folder is made, or is there and empty.
pub fn make_folder(folder: &Path) -> Result<(), Fault> {
    let fault = |said: String, kind| Fault::Record(RecorderFault::File { path: folder.to_path_buf(), kind, said });
    match std::fs::create_dir(folder) {
        Err(error) if error.kind() == std::io::ErrorKind::AlreadyExists => {
            let mut found = std::fs::read_dir(folder).map_err(|it| fault(it.to_string(), it.kind()))?;
            let is_empty = found.next().is_none();
            if is_empty { Ok(()) } else { Err(fault("it isn't empty".to_string(), error.kind())) }
        }
        made => made.map_err(|it| fault(it.to_string(), it.kind())),
    }
}

/// Opens a partition's nodes, and its script where there is a folder for that.
pub fn open(topic: &str, index: i32, options: &Options) -> Result<(Cluster, Option<Script>), Fault> {
    let Some(folder) = &options.record else { return Ok((Cluster::open(options.nodes, LIMITS)?, None)) };
    let path = script_of(folder, topic, index);
    let limits = Limits { max_batch: MAX_RECORDED, ..LIMITS };
    let (cluster, recorder) = Recorder::open(&path, options.nodes, limits).map_err(Fault::Record)?;
    Ok((cluster, Some(Script { path, recorder, is_over: AtomicBool::new(false) })))
}

impl Script {
    /// Waits until all that has happened is in the files.
    pub fn flush(&self) -> Result<Recorded, RecorderFault> {
        self.recorder.flush()
    }
}

fn scripts(hub: &Hub) -> impl Iterator<Item = &Script> {
    hub.partitions.iter().filter_map(|it| it.script.as_ref())
}

/// Waits until all that has happened is in the files: a line for each script.
pub fn flush(hub: &Hub) -> Result<String, String> {
    let mut out = String::new();
    for script in scripts(hub) {
        let path = script.path.display();
        let recorded = script.flush().map_err(|it| format!("{path}: {it}"))?;
        let _ = writeln!(out, "script {path} events {} messages {}", recorded.events, recorded.messages);
    }
    Ok(out)
}

/// Ends the records, once. What is wrong with one is said on stderr.
pub fn stop(hub: &Hub) {
    for script in scripts(hub).filter(|it| !it.is_over.swap(true, SeqCst)) {
        if let Err(why) = script.recorder.stop() {
            let _said = writeln!(std::io::stderr(), "kpart-broker: {}: {why}", script.path.display());
        }
    }
}
