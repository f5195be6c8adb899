//! Cases and answers, as bytes on a pipe: see PROTOCOL.md beside the scripts.

use std::io::{Error, Read, Result, Write};
use std::process::{Child, ChildStdin, ChildStdout, Command, Stdio};
use std::sync::atomic::{AtomicUsize, Ordering};
use std::sync::mpsc::{sync_channel, Receiver};
use std::thread::JoinHandle;
use std::time::Duration;

/// The longest data and image that a program under test has room for.
pub const MOST_DATA: usize = 262_144;
pub const MOST_IMAGE: usize = 65_536;

#[derive(Clone)]
pub struct Case {
    pub reader: u32,
    pub channel: u32,
    pub width: u32,
    pub height: u32,
    pub data: Vec<u8>,
    pub image: Vec<u32>,
}

#[derive(Clone, PartialEq)]
pub struct Answer {
    pub number: u32,
    pub block: u32,
    pub image: Vec<u32>,
}

/// A case with what a decoder answers to it.
pub type Pair = (Case, Answer);

impl Case {
    pub fn bytes(&self) -> Vec<u8> {
        let numbers = [self.reader, self.channel, 0, 0, self.width, self.height].map(u64::from);
        case_bytes(numbers, &self.data, &self.image)
    }
}

impl Answer {
    pub fn bytes(&self) -> Vec<u8> {
        [bytes(&[self.number, self.block]), bytes(&self.image)].concat()
    }
}

/// A case by its number, a, b, c, width and height, which are of 64 bits there.
pub fn case_bytes(numbers: [u64; 6], data: &[u8], image: &[u32]) -> Vec<u8> {
    let head = numbers.into_iter().chain([data.len() as u64, image.len() as u64]);
    [head.flat_map(u64::to_le_bytes).collect(), data.to_vec(), bytes(image)].concat()
}

pub fn bytes(words: &[u32]) -> Vec<u8> {
    words.iter().flat_map(|w| w.to_le_bytes()).collect()
}

fn words(bytes: &[u8]) -> Vec<u32> {
    bytes.chunks_exact(4).map(|w| u32::from_le_bytes([w[0], w[1], w[2], w[3]])).collect()
}

/// How many answers came, for the watch.
static ANSWERS: AtomicUsize = AtomicUsize::new(0);

/// Ends the run where no answer came for two minutes: a program that waits for more
/// than it was sent would otherwise wait for ever.
pub fn watch() {
    std::thread::spawn(|| {
        let mut before = usize::MAX;
        loop {
            let now = ANSWERS.load(Ordering::Relaxed);
            if now == before {
                eprintln!("oracle: no answer for two minutes");
                std::process::exit(2);
            }
            before = now;
            std::thread::sleep(Duration::from_secs(120));
        }
    });
}

/// A running program that is sent cases from a thread of its own, so that neither
/// side waits for the other with a full pipe.
pub struct Peer {
    child: Child,
    out: ChildStdout,
    sent: Receiver<Case>,
    sender: JoinHandle<Result<()>>,
}

impl Peer {
    pub fn start(command: &str, cases: impl Iterator<Item = Case> + Send + 'static) -> Result<Peer> {
        let mut child = Command::new(command).stdin(Stdio::piped()).stdout(Stdio::piped()).spawn()?;
        let mut input = child.stdin.take().ok_or_else(|| Error::other("no standard input"))?;
        let out = child.stdout.take().ok_or_else(|| Error::other("no standard output"))?;
        let (note, sent) = sync_channel(64);
        let sender = std::thread::spawn(move || {
            for case in cases {
                send(&mut input, &case)?;
                if note.send(case).is_err() {
                    break;
                }
            }
            Ok(())
        });
        Ok(Peer { child, out, sent, sender })
    }

    /// The next case with what the program answered, or None after the last.
    pub fn next(&mut self) -> Result<Option<Pair>> {
        let Ok(case) = self.sent.recv() else { return Ok(None) };
        let mut bytes = vec![0; 8 + 4 * case.image.len()];
        self.out.read_exact(&mut bytes).map_err(|_| no_answer(&case))?;
        ANSWERS.fetch_add(1, Ordering::Relaxed);
        let mut all = words(&bytes);
        let image = all.split_off(2);
        Ok(Some((case, Answer { number: all[0], block: all[1], image })))
    }

    /// After the last answer: nothing more may come, and the program must end well.
    /// The sender is told to stop first, else it might wait for a program that is gone.
    pub fn finish(mut self) -> Result<()> {
        drop(self.sent);
        let mut rest = Vec::new();
        self.out.read_to_end(&mut rest)?;
        let status = self.child.wait()?;
        let sent = self.sender.join().map_err(|_| Error::other("the sender stopped"))?;
        if !status.success() {
            return Err(Error::other(format!("a program ended before its last case, {status}")));
        }
        if !rest.is_empty() {
            return Err(Error::other(format!("{} bytes after the last answer", rest.len())));
        }
        sent
    }
}

/// What a program answers to a few cases.
pub fn ask(command: &str, cases: Vec<Case>) -> Result<Vec<Pair>> {
    let mut peer = Peer::start(command, cases.into_iter())?;
    let mut all = Vec::new();
    while let Some(pair) = peer.next()? {
        all.push(pair);
    }
    peer.finish()?;
    Ok(all)
}

fn no_answer(case: &Case) -> Error {
    let (data, image) = (case.data.len(), case.image.len());
    let what = format!("{} by {}, {data} bytes, {image} elements", case.width, case.height);
    Error::other(format!("a program gave no whole answer to a case of reader {}: {what}", case.reader))
}

// One write a case: a case left in a buffer would leave both sides waiting.
fn send(input: &mut ChildStdin, case: &Case) -> Result<()> {
    input.write_all(&case.bytes())
}
