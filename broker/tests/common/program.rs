//! The program, which is started in a folder, killed, and started again.

use super::{Client, Fallible, LONG, Outcome};
use std::io::{BufRead, BufReader, Read, Write};
use std::net::TcpStream;
use std::path::{Path, PathBuf};
use std::process::{Child, ChildStdout, Command, Stdio};
use std::sync::atomic::{AtomicU64, Ordering};
use std::time::Duration;

/// A folder that is gone with this.
pub struct Folder(pub PathBuf);

impl Folder {
    /// With `fast` where a sync costs nothing, if there is such a place.
    pub fn new(name: &str, fast: bool) -> Folder {
        let memory = Path::new("/dev/shm");
        let place = if fast && memory.is_dir() { memory.to_path_buf() } else { std::env::temp_dir() };
        static COUNT: AtomicU64 = AtomicU64::new(0);
        let number = COUNT.fetch_add(1, Ordering::Relaxed);
        let path = place.join(format!("kpart-broker-{name}-{}-{number}", std::process::id()));
        let _gone = std::fs::remove_dir_all(&path);
        std::fs::create_dir(&path).expect("it is made");
        Folder(path)
    }

    pub fn data(&self) -> PathBuf {
        self.0.join("data")
    }
}

impl Drop for Folder {
    fn drop(&mut self) {
        let _gone = std::fs::remove_dir_all(&self.0);
    }
}

/// Copies a folder with all that is in it.
pub fn copy(from: &Path, to: &Path) -> std::io::Result<()> {
    std::fs::create_dir_all(to)?;
    for entry in std::fs::read_dir(from)? {
        let entry = entry?;
        let target = to.join(entry.file_name());
        if entry.path().is_dir() {
            copy(&entry.path(), &target)?;
        } else {
            std::fs::copy(entry.path(), target)?;
        }
    }
    Ok(())
}

/// A part of `tools/lib` that a process loads (LD_PRELOAD); none where there is no C compiler.
pub fn preload(folder: &Folder, name: &str) -> Option<PathBuf> {
    let source = Path::new(concat!(env!("CARGO_MANIFEST_DIR"), "/../tools/lib")).join(name).with_extension("c");
    let program = folder.0.join(name).with_extension("so");
    let built = Command::new("cc").args(["-O2", "-shared", "-fPIC", "-pthread", "-o"]).arg(&program).arg(source).status().ok()?;
    assert!(built.success(), "{built}");
    Some(program)
}

/// Where a broker that is another process listens.
#[derive(Clone, Debug, Default)]
pub struct At {
    pub ports: Vec<u16>,
    pub admin: u16,
}

impl At {
    pub fn client(&self, node: u8) -> Fallible<Client> {
        Client::of_port(self.ports[usize::from(node)])
    }

    /// What an admin's line is answered.
    pub fn ask(&self, line: &str) -> Fallible<String> {
        let mut stream = TcpStream::connect(("127.0.0.1", self.admin))?;
        stream.set_read_timeout(Some(LONG))?;
        stream.write_all(format!("{line}\n").as_bytes())?;
        let (mut lines, mut said) = (BufReader::new(stream), String::new());
        while !said.ends_with("ok\n") && !said.lines().last().is_some_and(|it| it.starts_with("error")) {
            if lines.read_line(&mut said)? == 0 {
                break;
            }
        }
        Ok(said)
    }

    /// A client of the node that leads a partition, as the broker shows it.
    pub fn leader(&self, index: i32) -> Fallible<Client> {
        let start = format!("partition {} {index} leader ", super::TOPIC);
        let shown = self.ask("show")?;
        let line = shown.lines().find_map(|it| it.strip_prefix(&start)).ok_or("no such partition")?;
        self.client(line.split(' ').next().unwrap_or_default().parse()?)
    }
}

/// A broker that is another process, and ends with this.
pub struct Program {
    pub child: Child,
    pub at: At,
    lines: Option<BufReader<ChildStdout>>,
}

impl Program {
    /// Its words, for so many partitions.
    pub fn command(data: &Path, partitions: u32) -> Command {
        let mut command = Command::new(env!("CARGO_BIN_EXE_kpart-broker"));
        command.args(["--port", "0", "--admin", "0", "--topic", &format!("{}:{partitions}", super::TOPIC), "--data"]).arg(data);
        command
    }

    /// Starts it, and waits until it is ready. Where it ends before, what it has said.
    pub fn start(command: &mut Command) -> Fallible<Program> {
        let mut program = Program::spawn(command)?;
        program.wait_ready()?;
        Ok(program)
    }

    /// Starts it. `wait_ready` comes next.
    pub fn spawn(command: &mut Command) -> Fallible<Program> {
        let mut child = command.stdin(Stdio::piped()).stdout(Stdio::piped()).stderr(Stdio::piped()).spawn()?;
        let lines = child.stdout.take().map(BufReader::new);
        Ok(Program { child, at: At::default(), lines })
    }

    /// The next line that it says on stdout.
    pub fn line(&mut self) -> Fallible<String> {
        let mut line = String::new();
        self.lines.as_mut().ok_or("no pipe")?.read_line(&mut line)?;
        Ok(line)
    }

    /// Waits until it says that it is ready, or, behind a first one, the next one does.
    pub fn wait_ready(&mut self) -> Outcome {
        let line = self.line()?;
        let words: Vec<&str> = line.split_whitespace().collect();
        let ["ready:", "bootstrap", bootstrap, "admin", admin] = words[..] else { return Err(self.said().into()) };
        let port = |it: &str| it.trim_end_matches(';').rsplit_once(':').and_then(|it| it.1.parse().ok()).ok_or("no port");
        let ports = bootstrap.trim_end_matches(';').split(',').map(port).collect::<Result<_, _>>()?;
        self.at = At { ports, admin: port(admin)? };
        Ok(())
    }

    /// What it has said on stderr, once it has ended.
    pub fn said(&mut self) -> String {
        let mut said = String::new();
        if let Some(mut pipe) = self.child.stderr.take() {
            let _read = pipe.read_to_string(&mut said);
        }
        let _ended = self.child.wait();
        said
    }

    /// `kill -9`.
    pub fn kill(&mut self) {
        let _killed = self.child.kill();
        let _ended = self.child.wait();
    }
}

impl Drop for Program {
    fn drop(&mut self) {
        // Where a shell has started it, that alone is killed.
        let _asked = self.at.ask("quit");
        self.kill();
    }
}

/// Numbers by chance (Marsaglia's xorshift).
pub struct Chance(u64);

impl Chance {
    pub fn new(seed: u64) -> Chance {
        Chance(seed.wrapping_mul(0x9E37_79B9_7F4A_7C15) | 1)
    }

    pub fn below(&mut self, bound: usize) -> usize {
        self.0 ^= self.0 << 13;
        self.0 ^= self.0 >> 7;
        self.0 ^= self.0 << 17;
        (self.0 >> 16) as usize % bound.max(1)
    }

    pub fn time(&mut self, most_ms: usize) -> Duration {
        Duration::from_micros(self.below(most_ms * 1_000) as u64)
    }
}
