//! `oracle program N BIN ..` and `oracle program-stl N BIN ..`: a program itself, a process a file, beside the listing. It has
//! to print that byte for byte, to end with success and to say nothing on standard error. The floats that a reader is lent there stand in
//! the program's own memory, and C has no name for it: no run sees their bits, a NaN's least of all.

use crate::listing::listing;
use crate::reach::Reach;
use crate::record::Exception;
use crate::sent::{sent, Sent, SEED};
use std::io::{self, Read, Write};
use std::process::{Child, ChildStdin, Command, ExitStatus, Stdio};
use std::sync::atomic::{AtomicU64, Ordering};
use std::sync::mpsc::{channel, Receiver};
use std::thread;
use std::time::{Duration, Instant};

/// A process that takes longer has gone astray.
pub const LIMIT: Duration = Duration::from_secs(60);

/// No listing is half as long; what is printed behind that is not read.
const MOST_OUTPUT: u64 = 1 << 20;

/// Between two parts of a file: time enough for a process that waits to read what there is.
const PAUSE: Duration = Duration::from_millis(2);

pub struct Program {
    words: Vec<String>,
    limit: Duration,
    /// Long enough for a process to start and read: the pause behind the first part of a file.
    start: Duration,
}

/// How a process ended: not at all in time, or with what it printed.
struct Ended {
    status: Option<ExitStatus>,
    out: Vec<u8>,
    err: Vec<u8>,
}

impl Program {
    /// The executable and what it is called with. It is started once, on nothing: whether it can be, and how long it takes.
    pub fn new(words: &[&str], limit: Duration) -> io::Result<Program> {
        let words = words.iter().map(|word| word.to_string()).collect();
        let mut program = Program { words, limit, start: PAUSE };
        let (nothing, begun) = (Sent { name: "empty", bytes: Vec::new(), parts: Vec::new() }, Instant::now());
        program.run(nothing)?;
        program.start = (2 * begun.elapsed()).clamp(PAUSE, 100 * PAUSE);
        Ok(program)
    }

    fn run(&self, sent: Sent) -> io::Result<Ended> {
        let until = Instant::now() + self.limit;
        let mut command = Command::new(&self.words[0]);
        command.args(&self.words[1..]).stdin(Stdio::piped()).stdout(Stdio::piped()).stderr(Stdio::piped());
        let mut child =
            command.spawn().map_err(|e| io::Error::other(format!("cannot start {}: {e}", self.words[0])))?;
        let (stdin, out, err) = (child.stdin.take(), child.stdout.take(), child.stderr.take());
        let (stdin, out, err) = (stdin.expect("a pipe"), out.expect("a pipe"), err.expect("a pipe"));
        // One thread a pipe, so that no full pipe holds up another. None of them is waited for: whoever has inherited a
        // pipe may keep it longer than the process lives.
        let start = self.start;
        thread::spawn(move || feed(stdin, &sent, start));
        let texts = [read_all(out), read_all(err)];
        let mut ended = Ended { status: None, out: Vec::new(), err: Vec::new() };
        for (text, to) in texts.iter().zip([&mut ended.out, &mut ended.err]) {
            *to = text.recv_timeout(until.saturating_duration_since(Instant::now())).unwrap_or_default();
        }
        ended.status = status(&mut child, until)?;
        Ok(ended)
    }
}

/// Writes the file part by part. A program that reads no more is not at fault for that: what it prints tells.
fn feed(mut to: ChildStdin, sent: &Sent, start: Duration) {
    let (mut rest, mut pause) = (sent.bytes.as_slice(), start);
    for &length in &sent.parts {
        let (part, behind) = rest.split_at(length);
        if to.write_all(part).and_then(|()| to.flush()).is_err() {
            return;
        }
        thread::sleep(pause);
        (rest, pause) = (behind, PAUSE);
    }
    let _ = to.write_all(rest);
}

fn read_all(from: impl Read + Send + 'static) -> Receiver<Vec<u8>> {
    let (tell, told) = channel();
    thread::spawn(move || {
        let mut bytes = Vec::new();
        // What was read before a fault is what was printed.
        let _ = from.take(MOST_OUTPUT).read_to_end(&mut bytes);
        let _ = tell.send(bytes);
    });
    told
}

/// How the process ended. It is stopped where its time is over.
fn status(child: &mut Child, until: Instant) -> io::Result<Option<ExitStatus>> {
    loop {
        if let Some(status) = child.try_wait()? {
            return Ok(Some(status));
        }
        if Instant::now() >= until {
            child.kill()?;
            child.wait()?;
            return Ok(None);
        }
        thread::sleep(PAUSE / 40);
    }
}

/// What is wrong with an answer, if anything is.
fn faults(ended: &Ended, right: &str) -> Option<String> {
    let mut faults = Vec::new();
    if ended.out != right.as_bytes() {
        faults.push(first_difference(&String::from_utf8_lossy(&ended.out), right));
    }
    match ended.status {
        Some(status) if status.success() => {}
        Some(status) => faults.push(status.to_string()),
        None => faults.push("it did not end in time".to_string()),
    }
    if !ended.err.is_empty() {
        faults.push(format!("standard error says {:?}", start_of(&String::from_utf8_lossy(&ended.err))));
    }
    (!faults.is_empty()).then(|| faults.join("; "))
}

/// The first line that is not the right one.
fn first_difference(given: &str, right: &str) -> String {
    let (mut given, mut right) = (given.split('\n'), right.split('\n'));
    let mut line = 1;
    loop {
        match (given.next(), right.next()) {
            (Some(is), Some(should)) if is == should => line += 1,
            (is, should) => {
                let told =
                    |line: Option<&str>| line.map_or("missing".to_string(), |line| format!("{:?}", start_of(line)));
                return format!("line {line} is {}, should be {}", told(is), told(should));
            }
        }
    }
}

fn start_of(text: &str) -> String {
    text.chars().take(80).collect()
}

/// So many that differ are shown.
const SHOWN: usize = 5;

#[derive(Default)]
pub struct Count {
    pub agree: u64,
    pub differ: u64,
    /// What all files reach, by the original.
    pub reach: Reach,
    /// Files near the one exception, which are compared by document 01's exact form.
    pub near: u64,
    /// The numbers of those on which `powf` answers otherwise.
    pub otherwise: Vec<u64>,
    /// The first that differ, by number.
    pub shown: Vec<(u64, String)>,
}

/// What a program is for: the files that it is sent, by number, the text that it has to print, and what a file reaches.
pub struct Task {
    pub sent: fn(u64) -> Sent,
    pub right: fn(&[u8]) -> (String, Exception),
    pub reach: fn(&mut Reach, &[u8]),
}

/// `takeoff`.
pub const MESHES: Task = Task { sent, right: listing, reach: Reach::count };

impl Count {
    fn add(&mut self, program: &Program, task: &Task, number: u64) -> io::Result<()> {
        let sent = (task.sent)(number);
        let (right, exception) = (task.right)(&sent.bytes);
        (task.reach)(&mut self.reach, &sent.bytes);
        let parts = if sent.parts.is_empty() { String::new() } else { format!(", {} parts", sent.parts.len() + 1) };
        let named = format!("file {number} of seed {SEED} ({}, {} bytes{parts})", sent.name, sent.bytes.len());
        let mut wrong = faults(&program.run(sent)?, &right);
        match exception {
            Exception::Apart => {}
            Exception::Near { changed } => {
                self.near += 1;
                self.otherwise.extend(changed.then_some(number));
            }
            // The listing is not to be trusted then, whatever the program says.
            Exception::Outside => {
                wrong = Some("powf answers otherwise, and it is not near the one exception".to_string())
            }
        }
        match wrong {
            None => self.agree += 1,
            Some(why) => {
                self.differ += 1;
                self.shown.push((number, format!("{named}: {why}")));
                self.in_order();
            }
        }
        Ok(())
    }

    fn join(&mut self, other: Count) {
        (self.agree, self.differ) = (self.agree + other.agree, self.differ + other.differ);
        self.reach.join(&other.reach);
        self.near += other.near;
        self.otherwise.extend(other.otherwise);
        self.shown.extend(other.shown);
        self.in_order();
    }

    /// The same for any number of workers.
    fn in_order(&mut self) {
        self.otherwise.sort_unstable();
        self.shown.sort();
        self.shown.truncate(SHOWN);
    }
}

/// The first n files, shared out among so many workers.
pub fn compare(program: &Program, task: &Task, n: u64, workers: usize) -> io::Result<Count> {
    let next = AtomicU64::new(0);
    let work = || {
        let mut count = Count::default();
        loop {
            let number = next.fetch_add(1, Ordering::Relaxed);
            if number >= n {
                return Ok(count);
            }
            if let Err(e) = count.add(program, task, number) {
                // The others need not go on.
                next.store(n, Ordering::Relaxed);
                return Err(e);
            }
        }
    };
    thread::scope(|scope| {
        let workers: Vec<_> = (0..workers.max(1)).map(|_| scope.spawn(work)).collect();
        let mut sum = Count::default();
        for worker in workers {
            sum.join(worker.join().expect("a worker goes through")?);
        }
        Ok(sum)
    })
}
