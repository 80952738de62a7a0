//! The plain program that bench/session and bench/data compare with: it runs the lines of their scripts over one map of
//! pages a file, in memory. It knows these lines as juicevol prints them and checks nothing. It has no sessions, rows,
//! transactions, blocks, caches or proofs, and each client sees what another one wrote at once. Its answers are
//! juicevol's for these scripts, each handed to the kernel by a call of its own, as juicevol's are.
use std::collections::HashMap;
use std::io::{self, BufRead, Write};

const PAGE: usize = 4096;
const CLIENTS: usize = 8;

#[derive(Default)]
struct File {
    pages: HashMap<u64, Box<[u8; PAGE]>>,
    length: u64,
    /// Whether something was written since the last flush, which then has more steps.
    is_pending: bool,
}

impl File {
    fn write(&mut self, mut at: u64, mut bytes: &[u8]) {
        self.length = self.length.max(at + bytes.len() as u64);
        while !bytes.is_empty() {
            let start = (at % PAGE as u64) as usize;
            let count = bytes.len().min(PAGE - start);
            let page = self
                .pages
                .entry(at / PAGE as u64)
                .or_insert_with(|| Box::new([0; PAGE]));
            page[start..start + count].copy_from_slice(&bytes[..count]);
            at += count as u64;
            bytes = &bytes[count..];
        }
    }

    fn read(&self, at: u64, length: u64) -> Vec<u8> {
        let end = self.length.min(at.saturating_add(length));
        let mut bytes = Vec::with_capacity(end.saturating_sub(at) as usize);
        let mut position = at;
        while position < end {
            let start = (position % PAGE as u64) as usize;
            let count = (PAGE - start).min((end - position) as usize);
            match self.pages.get(&(position / PAGE as u64)) {
                Some(page) => bytes.extend_from_slice(&page[start..start + count]),
                None => bytes.resize(bytes.len() + count, 0),
            }
            position += count as u64;
        }
        bytes
    }

    fn truncate(&mut self, length: u64) {
        if length < self.length {
            let last = length / PAGE as u64;
            self.pages.retain(|page, _| *page <= last);
            if let Some(page) = self.pages.get_mut(&last) {
                page[(length % PAGE as u64) as usize..].fill(0);
            }
        }
        self.length = length;
    }
}

fn digit(byte: u8) -> u8 {
    match byte {
        b'0'..=b'9' => byte - b'0',
        _ => byte - b'a' + 10,
    }
}

/// The bytes of DATA: parts joined by `+`, each pairs of digits, or a byte, an `x` and a count.
fn data(text: &str) -> Vec<u8> {
    let mut bytes = Vec::new();
    for part in text.split('+').filter(|part| *part != "-") {
        let text = part.as_bytes();
        if text.len() > 3 && text[2] == b'x' {
            let byte = digit(text[0]) << 4 | digit(text[1]);
            let count: usize = part[3..].parse().unwrap_or(0);
            bytes.resize(bytes.len() + count, byte);
        } else {
            bytes.extend(
                text.chunks_exact(2)
                    .map(|pair| digit(pair[0]) << 4 | digit(pair[1])),
            );
        }
    }
    bytes
}

/// The same bytes as DATA: four equal ones or more with a count.
fn print(out: &mut Vec<u8>, bytes: &[u8]) {
    const DIGITS: &[u8; 16] = b"0123456789abcdef";
    if bytes.is_empty() {
        out.push(b'-');
    }
    let (mut place, mut in_pairs) = (0, false);
    while place < bytes.len() {
        let rest = &bytes[place..];
        let byte = rest[0];
        let is_counted = rest.starts_with(&[byte; 4]);
        if place > 0 && (is_counted || !in_pairs) {
            out.push(b'+');
        }
        out.extend_from_slice(&[DIGITS[(byte >> 4) as usize], DIGITS[(byte & 15) as usize]]);
        if is_counted {
            let count = rest.iter().take_while(|other| **other == byte).count();
            out.extend_from_slice(format!("x{count}").as_bytes());
            place += count;
        } else {
            place += 1;
        }
        in_pairs = !is_counted;
    }
}

#[derive(Default)]
struct Client {
    /// The file of each handle: handle 1 stands first. A handle that was closed has none.
    handles: Vec<Option<usize>>,
    /// The operation that was begun, and how many steps it still has.
    under_way: Option<(String, u64)>,
}

impl Client {
    /// Opens a file at the least free handle, and returns that.
    fn open(&mut self, file: usize) -> usize {
        let place = match self.handles.iter().position(Option::is_none) {
            Some(place) => place,
            None => {
                self.handles.push(None);
                self.handles.len() - 1
            }
        };
        self.handles[place] = Some(file);
        place + 1
    }
}

#[derive(Default)]
struct Volume {
    sessions: u64,
    clients: [Client; CLIENTS],
    files: Vec<File>,
    names: HashMap<String, usize>,
}

impl Volume {
    /// Runs a line, and puts its answer into `out`. A line begins with its client's letter.
    fn line(&mut self, line: &str, out: &mut Vec<u8>) {
        if line.is_empty() || line.starts_with('#') {
            return;
        }
        let client = (line.as_bytes()[0] - b'A') as usize;
        let rest = &line[2..];
        if let Some(operation) = rest.strip_prefix("begin ") {
            let steps = self.steps(client, operation);
            self.clients[client].under_way = Some((operation.to_string(), steps));
            out.extend_from_slice(b"begun");
        } else if rest == "step" || rest == "run" {
            match self.clients[client].under_way.take() {
                Some((operation, steps)) if rest == "step" && steps > 1 => {
                    self.clients[client].under_way = Some((operation, steps - 1));
                    out.extend_from_slice(b"more");
                }
                Some((operation, _)) => self.operation(client, &operation, out),
                None => out.extend_from_slice(b"idle"),
            }
        } else {
            self.operation(client, rest, out);
        }
        out.push(b'\n');
    }

    /// How many steps juicevol has for an operation: for a flush those of one block, for a read a look and one block.
    fn steps(&self, client: usize, operation: &str) -> u64 {
        let words: Vec<&str> = operation.split(' ').collect();
        match words[0] {
            "close" | "flush" if self.files[self.file(client, words[1])].is_pending => 3,
            "read" => 2,
            _ => 1,
        }
    }

    /// The file of a handle.
    fn file(&self, client: usize, handle: &str) -> usize {
        self.clients[client].handles[number(handle) as usize - 1].expect("an open handle")
    }

    /// Runs an operation as a whole.
    fn operation(&mut self, client: usize, operation: &str, out: &mut Vec<u8>) {
        let words: Vec<&str> = operation.split(' ').collect();
        match words[0] {
            "mount" => {
                self.sessions += 1;
                out.extend_from_slice(format!("ok {}", self.sessions).as_bytes());
            }
            "create" | "open" => {
                let count = self.files.len();
                let file = *self.names.entry(words[1].to_string()).or_insert(count);
                if file == count {
                    self.files.push(File::default());
                }
                let handle = self.clients[client].open(file);
                // inode 1 is the root
                out.extend_from_slice(format!("ok {handle} {}", file + 2).as_bytes());
            }
            "write" => {
                let bytes = data(words[3]);
                let file = self.file(client, words[1]);
                self.files[file].write(number(words[2]), &bytes);
                self.files[file].is_pending = true;
                out.extend_from_slice(format!("ok {}", bytes.len()).as_bytes());
            }
            "read" => {
                let file = self.file(client, words[1]);
                self.files[file].is_pending = false;
                out.extend_from_slice(b"ok ");
                print(
                    out,
                    &self.files[file].read(number(words[2]), number(words[3])),
                );
            }
            "truncate" => {
                let file = self.file(client, words[1]);
                self.files[file].truncate(number(words[2]));
                out.extend_from_slice(b"ok");
            }
            "flush" | "close" => {
                let file = self.file(client, words[1]);
                self.files[file].is_pending = false;
                if words[0] == "close" {
                    self.clients[client].handles[number(words[1]) as usize - 1] = None;
                }
                out.extend_from_slice(b"ok");
            }
            _ => out.extend_from_slice(b"not a line of these scripts"),
        }
    }
}

fn number(text: &str) -> u64 {
    text.parse().expect("a number")
}

fn main() -> io::Result<()> {
    let mut volume = Volume::default();
    let mut input = io::stdin().lock();
    let mut output = io::stdout().lock();
    let (mut line, mut answer) = (String::new(), Vec::new());
    while input.read_line(&mut line)? > 0 {
        volume.line(line.trim_end(), &mut answer);
        output.write_all(&answer)?;
        line.clear();
        answer.clear();
    }
    Ok(())
}
