//! The static library in another process: the client of tests/panel/serve.c,
//! for a machine that can only run the library emulated. Every slice goes both
//! ways, and what may only be read must come back as it was.

use crate::panel::Panel;
use crate::table::Row;
use std::cell::RefCell;
use std::io::{BufReader, BufWriter, Read, Write};
use std::path::Path;
use std::process::{Child, ChildStdin, ChildStdout, Command, Stdio};

/// A command that runs a program built for x86-64.
pub fn x86(program: &Path) -> Command {
    let mut command = Command::new(Path::new(env!("CARGO_MANIFEST_DIR")).join("../../tools/x86"));
    command.arg("run").arg(program);
    command
}

struct Line {
    child: Child,
    to: Option<BufWriter<ChildStdin>>,
    from: BufReader<ChildStdout>,
}

pub struct Remote(RefCell<Line>);

/// An element as its bytes in memory, those of a number the lowest first.
trait Element: Copy {
    fn put(self, to: &mut Vec<u8>);
    fn get(from: &[u8]) -> Self;
}

macro_rules! number {
    ($($t:ty)*) => {$(
        impl Element for $t {
            fn put(self, to: &mut Vec<u8>) {
                to.extend_from_slice(&self.to_le_bytes());
            }
            fn get(from: &[u8]) -> Self {
                <$t>::from_le_bytes(from.try_into().unwrap())
            }
        }
    )*};
}

number!(u8 u16 u32 u64);

impl Element for Row {
    // The byte after the kind has no meaning, and is not always the same.
    fn put(self, to: &mut Vec<u8>) {
        to.extend_from_slice(&[self.kind, !self.kind]);
        self.x.put(to);
        self.y.put(to);
    }
    fn get(from: &[u8]) -> Self {
        Row {
            kind: from[0],
            x: u16::get(&from[2..4]),
            y: u16::get(&from[4..6]),
        }
    }
}

/// A slice that is lent, and what becomes of it when it comes back.
trait Lent {
    fn len(&self) -> usize;
    fn sent(&self) -> Vec<u8>;
    fn take_back(&mut self, bytes: &[u8]);
}

fn bytes_of<T: Element>(slice: &[T]) -> Vec<u8> {
    let mut bytes = Vec::with_capacity(std::mem::size_of_val(slice));
    slice.iter().for_each(|e| e.put(&mut bytes));
    bytes
}

/// What is lent to be read must come back as it was sent.
impl<T: Element> Lent for &[T] {
    fn len(&self) -> usize {
        <[T]>::len(self)
    }
    fn sent(&self) -> Vec<u8> {
        bytes_of(self)
    }
    fn take_back(&mut self, bytes: &[u8]) {
        assert!(
            bytes == self.sent(),
            "a slice was written that is lent to be read"
        );
    }
}

impl<T: Element> Lent for &mut [T] {
    fn len(&self) -> usize {
        <[T]>::len(self)
    }
    fn sent(&self) -> Vec<u8> {
        bytes_of(self)
    }
    fn take_back(&mut self, bytes: &[u8]) {
        for (e, from) in self
            .iter_mut()
            .zip(bytes.chunks_exact(std::mem::size_of::<T>()))
        {
            *e = T::get(from);
        }
    }
}

impl Line {
    fn send(&mut self, request: &[u8]) {
        let to = self.to.as_mut().unwrap();
        to.write_all(request).expect("the server takes the request");
        to.flush().expect("the server takes the request");
    }

    fn receive(&mut self, length: usize) -> Vec<u8> {
        let mut bytes = vec![0; length];
        self.from
            .read_exact(&mut bytes)
            .expect("the server answers");
        bytes
    }
}

impl Remote {
    pub fn start(path: &str) -> Remote {
        let mut child = x86(Path::new(path))
            .stdin(Stdio::piped())
            .stdout(Stdio::piped())
            .spawn()
            .unwrap_or_else(|e| panic!("cannot start {path}: {e}"));
        let to = child.stdin.take().map(BufWriter::new);
        let from = BufReader::new(child.stdout.take().unwrap());
        Remote(RefCell::new(Line { child, to, from }))
    }

    /// Sends all slices, and takes the reply and all slices back.
    fn ask(&self, entry: u8, lent: &mut [&mut dyn Lent]) -> u64 {
        let contents: Vec<Vec<u8>> = lent.iter().map(|slice| slice.sent()).collect();
        let mut request = vec![entry];
        lent.iter()
            .for_each(|slice| (slice.len() as u32).put(&mut request));
        request.extend(contents.concat());
        let mut line = self.0.borrow_mut();
        line.send(&request);
        let reply = u64::get(&line.receive(8));
        for (slice, sent) in lent.iter_mut().zip(&contents) {
            slice.take_back(&line.receive(sent.len()));
        }
        reply
    }
}

impl Drop for Line {
    fn drop(&mut self) {
        self.to = None;
        let _ = self.child.wait();
    }
}

/// An entry over the line: what it reads, then what it writes.
macro_rules! asked {
    ($remote:expr, $entry:expr, [$($read:ident),*], [$($written:ident),*]) => {
        $remote.ask($entry, &mut [$(&mut &*$read,)* $(&mut &mut *$written),*])
    };
}

impl Panel for Remote {
    fn analyse(
        &self,
        kinds: &[u8],
        xs: &[u16],
        ys: &[u16],
        roots: &[u16],
        matrix: &mut [u64],
    ) -> u64 {
        asked!(self, b'a', [kinds, xs, ys, roots], [matrix])
    }

    fn read_sheet(
        &self,
        bytes: &[u8],
        kinds: &mut [u8],
        xs: &mut [u16],
        ys: &mut [u16],
        roots: &mut [u16],
    ) -> u64 {
        asked!(self, b'r', [bytes], [kinds, xs, ys, roots])
    }

    fn list_pairs(
        &self,
        kinds: &[u8],
        xs: &[u16],
        ys: &[u16],
        roots: &[u16],
        matrix: &mut [u64],
        bytes: &mut [u8],
    ) -> u64 {
        asked!(self, b'l', [kinds, xs, ys, roots], [matrix, bytes])
    }

    fn analyse_rows(&self, rows: &[Row], roots: &[u16], matrix: &mut [u64]) -> u64 {
        asked!(self, b'A', [rows, roots], [matrix])
    }

    fn read_rows(&self, bytes: &[u8], rows: &mut [Row], roots: &mut [u16]) -> u64 {
        asked!(self, b'R', [bytes], [rows, roots])
    }

    fn list_rows(&self, rows: &[Row], roots: &[u16], matrix: &mut [u64], bytes: &mut [u8]) -> u64 {
        asked!(self, b'L', [rows, roots], [matrix, bytes])
    }

    fn write_sheet(
        &self,
        kinds: &[u8],
        xs: &[u16],
        ys: &[u16],
        roots: &[u16],
        bytes: &mut [u8],
    ) -> u64 {
        asked!(self, b'w', [kinds, xs, ys, roots], [bytes])
    }

    fn write_rows(&self, rows: &[Row], roots: &[u16], bytes: &mut [u8]) -> u64 {
        asked!(self, b'W', [rows, roots], [bytes])
    }
}
