//! The driver: a child process that holds the library, an image of the rows and another one, and makes one call for each request.
//! What goes through the pipe is written down in `driver.c`.

use std::io::{self, BufReader, Read, Write};
use std::ops::Range;
use std::process::{Child, ChildStdin, ChildStdout, Command, Stdio};

use crate::call::{Back, Call};
use crate::part::Part;
use crate::shape::{Answer, Beside, Card, Handed, Lead, State, ROWS, SECURE};

/// How many entries each of the driver's images has.
const IMAGE: usize = 8192;
/// Room for a reply with some thousand entries.
const BUFFER: usize = 1 << 16;
/// In place of a call: one row read once for each of many entries in it.
const READ_EACH: usize = 0x1_0000;

/// Entries of the image that became another number.
pub type Changed = Vec<(usize, u32)>;

/// What goes to the driver: a call by its place in the list, its numbers, its two lots of bytes, the rows and the other image, the state.
struct Request<'a> {
    call: usize,
    numbers: [u32; 4],
    lots: [&'a [u8]; 2],
    images: [&'a [u32]; 2],
    state: &'a State,
}

/// What came back: the state is there if the call gives one back.
pub struct Reply {
    pub answer: Answer,
    pub state: Option<State>,
    pub beside: Beside,
    pub changed: Changed,
}

pub struct Driver {
    child: Child,
    /// Closed by taking it away.
    input: Option<ChildStdin>,
    output: BufReader<ChildStdout>,
    /// The driver's images, as they stand there: that of the rows, and the other one.
    images: [Vec<u32>; 2],
    /// The bytes of the request, and of the part of a reply that is being read.
    request: Vec<u8>,
    part: Vec<u8>,
}

impl Driver {
    /// Starts the driver: a program and its arguments, parted by spaces.
    pub fn start(command: &str) -> Result<Driver, String> {
        let mut words = command.split_whitespace();
        let program = words.next().ok_or("the command of the driver is empty")?;
        let mut child = Command::new(program)
            .args(words)
            .stdin(Stdio::piped())
            .stdout(Stdio::piped())
            .spawn()
            .map_err(|error| format!("the driver '{program}' does not start: {error}"))?;
        let input = child.stdin.take();
        let output = child.stdout.take().ok_or("the driver has no output")?;
        Ok(Driver {
            child,
            input,
            output: BufReader::with_capacity(BUFFER, output),
            images: [(); 2].map(|()| vec![0; IMAGE]),
            request: Vec::with_capacity(BUFFER),
            part: Vec::new(),
        })
    }

    /// Makes one call on these rows.
    pub fn ask(&mut self, call: &Call, rows: &[u32], state: &State) -> Result<Reply, String> {
        let lots = call.bytes();
        self.send(&Request {
            call: call.index(),
            numbers: call.numbers(),
            lots: [&lots[0], &lots[1]],
            images: [rows, call.image()],
            state,
        })?;
        self.receive(call.kind().back, lots[0].len())
    }

    /// Reads a row with ECC for each of these entries in it, as Secure, on a chip that is blank otherwise.
    pub fn ask_each(&mut self, row: u32, entries: Range<u32>) -> Result<(Vec<Answer>, Changed), String> {
        self.send(&Request {
            call: READ_EACH,
            numbers: [SECURE, row, entries.start, entries.len() as u32],
            lots: [&[]; 2],
            images: [&[0; ROWS], &[]],
            state: &State::blank(),
        })?;
        let count: u32 = self.read()?;
        let answers = entries.map(|_| self.read()).collect::<Result<_, _>>()?;
        Ok((answers, self.receive_changed(count)?))
    }

    fn send(&mut self, asked: &Request) -> Result<(), String> {
        self.write_down(asked);
        let sent = match &mut self.input {
            Some(input) => input.write_all(&self.request),
            None => Err(io::ErrorKind::BrokenPipe.into()),
        };
        sent.map_err(|error| self.lost(error))
    }

    /// The request's bytes. Only the entries that the driver's images lack are among them.
    fn write_down(&mut self, asked: &Request) {
        let [rows, other] = asked.images;
        let differ = [differences(rows, &self.images[0]), differences(other, &self.images[1])];
        let lengths = [rows.len(), other.len(), differ[0].len(), differ[1].len()];
        self.request.clear();
        for count in [&[asked.call][..], &lengths, &asked.lots.map(<[u8]>::len)].concat() {
            (count as u32).put(&mut self.request);
        }
        asked.numbers.put(&mut self.request);
        asked.state.put(&mut self.request);
        for (image, (given, differ)) in self.images.iter_mut().zip(asked.images.iter().zip(differ)) {
            for place in differ {
                image[place] = given[place];
                (place as u32).put(&mut self.request);
                given[place].put(&mut self.request);
            }
        }
        self.request.extend(asked.lots.concat());
    }

    /// What the call gives back, with an area, an output or a report of so many bytes if it does.
    fn receive(&mut self, back: Back, length: usize) -> Result<Reply, String> {
        let count: u32 = self.read()?;
        let (mut state, mut beside) = (None, Beside::Nothing);
        let answer = match back {
            Back::Handed => {
                let handed: Handed = self.read()?;
                beside = Beside::Handed(handed);
                Answer::refused(handed.number)
            }
            Back::Card => {
                let card: Card = self.read()?;
                beside = Beside::Card(card);
                Answer::refused(card.number)
            }
            _ => self.read()?,
        };
        match back {
            Back::Answer | Back::Handed | Back::Card => {}
            Back::State => state = Some(self.read()?),
            Back::Report => {
                state = Some(self.read()?);
                beside = Beside::Report(entries(&self.receive_bytes(length)?));
            }
            Back::Lead => {
                let note = self.read()?;
                let area = self.receive_bytes(length)?;
                beside = Beside::Lead(Lead { note, area });
            }
            Back::Output => beside = Beside::Output(self.receive_bytes(length)?),
        }
        let changed = self.receive_changed(count)?;
        Ok(Reply {
            answer,
            state,
            beside,
            changed,
        })
    }

    fn receive_bytes(&mut self, length: usize) -> Result<Vec<u8>, String> {
        let mut bytes = vec![0; length];
        match self.output.read_exact(&mut bytes) {
            Ok(()) => Ok(bytes),
            Err(error) => Err(self.lost(error)),
        }
    }

    fn receive_changed(&mut self, count: u32) -> Result<Changed, String> {
        let mut changed = Vec::new();
        for _ in 0..count {
            let place = self.read::<u32>()? as usize;
            let value = self.read()?;
            let entry = self.images[0]
                .get_mut(place)
                .ok_or("the driver names no entry of its image")?;
            *entry = value;
            changed.push((place, value));
        }
        Ok(changed)
    }

    fn read<T: Part>(&mut self) -> Result<T, String> {
        self.part.resize(T::SIZE, 0);
        match self.output.read_exact(&mut self.part) {
            Ok(()) => T::take(&mut self.part.as_slice()),
            Err(error) => Err(self.lost(error)),
        }
    }

    /// Why no reply came.
    fn lost(&mut self, error: io::Error) -> String {
        self.input = None;
        match self.child.wait() {
            Ok(status) => format!("the driver ended ({status})"),
            Err(_) => format!("the driver does not answer: {error}"),
        }
    }
}

/// The report entries of these bytes.
fn entries(bytes: &[u8]) -> Vec<u32> {
    let entry = |four: &[u8]| u32::from_le_bytes([four[0], four[1], four[2], four[3]]);
    bytes.chunks_exact(4).map(entry).collect()
}

/// The places where the rows are not as in the image.
fn differences(rows: &[u32], image: &[u32]) -> Vec<usize> {
    if rows == &image[..rows.len()] {
        return Vec::new();
    }
    (0..rows.len()).filter(|place| rows[*place] != image[*place]).collect()
}

/// The driver ends when its input does.
impl Drop for Driver {
    fn drop(&mut self) {
        self.input = None;
        let _ = self.child.wait();
    }
}
