//! A plain program without proofs that does the work of `geonodes eval` on the first form of trees:
//! it reads an OBJ, moves each vertex, and writes the mesh.
//!
//! It is what the proved program is measured against, so it is written for speed. It takes the
//! offset as three whole numbers in place of a tree: `plain OBJ X Y Z`. Numbers have 32 places in
//! base 2, as in the proved program, so that both write the same bytes. Edges are kept in lists
//! under their lesser vertices, with no bound: it is for files that nobody made to hurt it.

use std::env;
use std::fs::File;
use std::io::{self, Read, Write};
use std::process::ExitCode;

/// No edge.
const NONE: u32 = u32::MAX;

/// Zeros behind the text, so that looking a few bytes ahead needs no test.
const SLACK: usize = 16;

#[derive(Default)]
struct Mesh {
    points: Vec<[i64; 3]>,
    edges: Vec<(u32, u32)>,
    /// Where the corners of each face end.
    ends: Vec<u32>,
    corner_points: Vec<u32>,
    corner_edges: Vec<u32>,
    /// For each vertex the first edge of its list.
    first: Vec<u32>,
    /// For each edge the next one of its list.
    next: Vec<u32>,
    /// How many edges came from rows.
    rows: usize,
}

impl Mesh {
    /// The number of the edge between two vertices, which is made if it is new.
    fn edge(&mut self, a: u32, b: u32) -> u32 {
        let (lesser, greater) = if b < a { (b, a) } else { (a, b) };
        let head = self.first[lesser as usize];
        let mut edge = head;
        while edge != NONE {
            if self.edges[edge as usize].1 == greater {
                return edge;
            }
            edge = self.next[edge as usize];
        }
        let edge = self.edges.len() as u32;
        self.edges.push((lesser, greater));
        self.next.push(head);
        self.first[lesser as usize] = edge;
        edge
    }

    /// Makes a face of the corners from a place on, unless a vertex is there twice.
    fn face(&mut self, begin: usize) {
        let corners = &self.corner_points[begin..];
        let twice = match corners {
            [a, b, c] => a == b || b == c || a == c,
            [a, b, c, d] => a == b || a == c || a == d || b == c || b == d || c == d,
            _ => (1..corners.len()).any(|i| corners[..i].contains(&corners[i])),
        };
        if twice {
            self.corner_points.truncate(begin);
            return;
        }
        let end = self.corner_points.len();
        self.first.resize(self.points.len(), NONE);
        let mut from = self.corner_points[begin];
        for i in begin + 1..end {
            let to = self.corner_points[i];
            let edge = self.edge(from, to);
            self.corner_edges.push(edge);
            from = to;
        }
        let edge = self.edge(from, self.corner_points[begin]);
        self.corner_edges.push(edge);
        self.ends.push(end as u32);
    }
}

/// A text with zeros behind it, and how far it is read.
struct Text<'a> {
    bytes: &'a [u8],
    at: usize,
}

impl Text<'_> {
    #[inline(always)]
    fn peek(&self) -> u8 {
        self.bytes[self.at]
    }

    #[inline(always)]
    fn skip_blanks(&mut self) {
        while matches!(self.peek(), b' ' | b'\t' | b'\r') {
            self.at += 1;
        }
    }

    /// Goes behind the end of the line.
    fn skip_line(&mut self) {
        while self.peek() != b'\n' && self.at < self.bytes.len() - SLACK {
            self.at += 1;
        }
        self.at += 1;
    }

    /// The raw number of a decimal text without an exponent, of at most nine places.
    #[inline(always)]
    fn number(&mut self) -> Option<i64> {
        self.skip_blanks();
        let negative = self.peek() == b'-';
        if negative || self.peek() == b'+' {
            self.at += 1;
        }
        let start = self.at;
        let mut whole: u64 = 0;
        let mut digit = self.peek().wrapping_sub(b'0');
        while digit < 10 {
            whole = whole * 10 + digit as u64;
            self.at += 1;
            digit = self.peek().wrapping_sub(b'0');
        }
        let mut digits = self.at - start;
        if digits > 9 {
            return None;
        }
        let mut raw = whole << 32;
        if self.peek() == b'.' {
            self.at += 1;
            let start = self.at;
            let mut part: u64 = 0;
            digit = self.peek().wrapping_sub(b'0');
            while digit < 10 {
                part = part * 10 + digit as u64;
                self.at += 1;
                digit = self.peek().wrapping_sub(b'0');
            }
            let places = self.at - start;
            if places > 9 {
                return None;
            }
            digits += places;
            const SCALE: [u64; 10] = [
                1_000_000_000, 100_000_000, 10_000_000, 1_000_000, 100_000, 10_000, 1_000, 100, 10, 1,
            ];
            let scaled = (part * SCALE[places]) << 32;
            let (fraction, rest) = (scaled / 1_000_000_000, scaled % 1_000_000_000);
            let up = rest > 500_000_000 || (rest == 500_000_000 && fraction % 2 == 1);
            raw += fraction + up as u64;
        }
        if digits == 0 || self.peek() > b' ' {
            return None;
        }
        let raw = raw.min(i64::MAX as u64) as i64;
        Some(if negative { -raw } else { raw })
    }

    /// Resolves a reference; `count` vertices stand above it.
    #[inline(always)]
    fn vertex(&mut self, count: u32) -> Option<u32> {
        let negative = self.peek() == b'-';
        if negative || self.peek() == b'+' {
            self.at += 1;
        }
        let mut index: u64 = 0;
        let mut digit = self.peek().wrapping_sub(b'0');
        while digit < 10 {
            index = (index * 10 + digit as u64).min(1 << 40);
            self.at += 1;
            digit = self.peek().wrapping_sub(b'0');
        }
        if self.peek() == b'/' {
            while self.peek() > b' ' {
                self.at += 1;
            }
        }
        if index == 0 || index > count as u64 || self.peek() > b' ' {
            return None;
        }
        Some(if negative { count - index as u32 } else { index as u32 - 1 })
    }
}

/// Takes the words of a face or of a row in.
fn references(mesh: &mut Mesh, text: &mut Text, face: bool) -> Option<()> {
    let count = mesh.points.len() as u32;
    let begin = mesh.corner_points.len();
    text.skip_blanks();
    while text.peek() > b' ' && text.peek() != b'#' {
        let vertex = text.vertex(count)?;
        mesh.corner_points.push(vertex);
        text.skip_blanks();
    }
    let words = mesh.corner_points.len() - begin;
    if words < if face { 3 } else { 2 } {
        return None;
    }
    if face {
        mesh.face(begin);
        return Some(());
    }
    mesh.first.resize(mesh.points.len(), NONE);
    for i in begin + 1..begin + words {
        let (from, to) = (mesh.corner_points[i - 1], mesh.corner_points[i]);
        if from != to {
            mesh.edge(from, to);
            mesh.rows += 1;
        }
    }
    mesh.corner_points.truncate(begin);
    Some(())
}

/// The mesh of a text with zeros behind it, or the number of its first bad line.
fn read(bytes: &[u8]) -> Result<Mesh, usize> {
    let mut mesh = Mesh::default();
    // A line of a vertex or of a face has about 25 bytes; what is too little grows.
    let lines = bytes.len() / 48;
    mesh.points.reserve(lines);
    mesh.ends.reserve(lines);
    mesh.edges.reserve(2 * lines);
    mesh.next.reserve(2 * lines);
    mesh.corner_points.reserve(4 * lines);
    mesh.corner_edges.reserve(4 * lines);
    let mut text = Text { bytes, at: 0 };
    let mut line: usize = 0;
    while text.at < bytes.len() - SLACK {
        line += 1;
        text.skip_blanks();
        let keyword = (text.peek(), bytes[text.at + 1]);
        let known = matches!(keyword.1, b' ' | b'\t');
        let taken: Option<()> = match keyword.0 {
            b'v' if known => {
                text.at += 1;
                let mut position = || Some([text.number()?, text.number()?, text.number()?]);
                position().map(|point| mesh.points.push(point))
            }
            b'f' | b'l' if known => {
                text.at += 1;
                references(&mut mesh, &mut text, keyword.0 == b'f')
            }
            _ => Some(()),
        };
        taken.ok_or_else(|| line)?;
        text.skip_line();
    }
    mesh.first = Vec::new();
    mesh.next = Vec::new();
    Ok(mesh)
}

/// The two digits of each number below 100.
static PAIRS: [[u8; 2]; 100] = {
    let mut pairs = [[0; 2]; 100];
    let mut i = 0;
    while i < 100 {
        pairs[i] = [b'0' + (i / 10) as u8, b'0' + (i % 10) as u8];
        i += 1;
    }
    pairs
};

/// Bytes that wait to be written.
struct Page<W: Write> {
    bytes: Vec<u8>,
    len: usize,
    out: W,
}

impl<W: Write> Page<W> {
    /// Makes room for a line of a few words.
    #[inline(always)]
    fn room(&mut self) -> io::Result<()> {
        if self.len + 128 > self.bytes.len() {
            self.flush()?;
        }
        Ok(())
    }

    fn flush(&mut self) -> io::Result<()> {
        self.out.write_all(&self.bytes[..self.len])?;
        self.len = 0;
        Ok(())
    }

    #[inline(always)]
    fn byte(&mut self, byte: u8) {
        self.bytes[self.len] = byte;
        self.len += 1;
    }

    #[inline(always)]
    fn two(&mut self, number: u64) {
        self.bytes[self.len..self.len + 2].copy_from_slice(&PAIRS[number as usize]);
        self.len += 2;
    }

    /// A whole number below 2^32.
    #[inline(always)]
    fn whole(&mut self, number: u64) {
        if number < 10 {
            return self.byte(b'0' + number as u8);
        }
        let mut digits = [0; 20];
        let (mut at, mut rest) = (10, number as u32);
        while rest >= 10 {
            at -= 2;
            digits[at..at + 2].copy_from_slice(&PAIRS[(rest % 100) as usize]);
            rest /= 100;
        }
        if rest > 0 {
            at -= 1;
            digits[at] = b'0' + rest as u8;
        }
        // Ten bytes are copied, whatever the length, and those too much are written over.
        let ten: [u8; 10] = digits[at..at + 10].try_into().unwrap();
        self.bytes[self.len..self.len + 10].copy_from_slice(&ten);
        self.len += 10 - at;
    }

    /// A space and a raw number as a decimal text with at most ten places.
    #[inline(always)]
    fn number(&mut self, raw: i64) {
        self.byte(b' ');
        let exact = raw.unsigned_abs();
        let part = (exact & 0xffff_ffff) * 9_765_625;
        let (mut whole, mut places) = (exact >> 32, part >> 22);
        let left = part & 0x3f_ffff;
        if left > 1 << 21 || (left == 1 << 21 && places % 2 == 1) {
            places += 1;
        }
        if places == 10_000_000_000 {
            (whole, places) = (whole + 1, 0);
        }
        if raw < 0 && (whole > 0 || places > 0) {
            self.byte(b'-');
        }
        self.whole(whole);
        if places == 0 {
            return;
        }
        self.byte(b'.');
        let (high, low) = (places / 100_000_000, places % 100_000_000);
        let (third, fifth) = (low / 10_000, low % 10_000);
        self.two(high);
        self.two(third / 100);
        self.two(third % 100);
        self.two(fifth / 100);
        self.two(fifth % 100);
        while self.bytes[self.len - 1] == b'0' {
            self.len -= 1;
        }
    }

    #[inline(always)]
    fn index(&mut self, index: u32) {
        self.byte(b' ');
        self.whole(index as u64 + 1);
    }
}

fn write(out: impl Write, mesh: &Mesh) -> io::Result<()> {
    let mut page = Page { bytes: vec![0; 1 << 16], len: 0, out };
    for point in &mesh.points {
        page.room()?;
        page.byte(b'v');
        for &raw in point {
            page.number(raw);
        }
        page.byte(b'\n');
    }
    if mesh.rows > 0 {
        let mut around = vec![false; mesh.edges.len()];
        for &edge in &mesh.corner_edges {
            around[edge as usize] = true;
        }
        for (edge, _) in mesh.edges.iter().zip(&around).filter(|(_, around)| !**around) {
            page.room()?;
            page.byte(b'l');
            page.index(edge.0);
            page.index(edge.1);
            page.byte(b'\n');
        }
    }
    let mut start = 0;
    for &end in &mesh.ends {
        page.room()?;
        page.byte(b'f');
        for &vertex in &mesh.corner_points[start..end as usize] {
            page.room()?;
            page.index(vertex);
        }
        page.byte(b'\n');
        start = end as usize;
    }
    page.flush()
}

fn main() -> ExitCode {
    let words: Vec<String> = env::args().collect();
    let offset: Vec<i64> = words[2..5]
        .iter()
        .map(|word| word.parse::<i64>().expect("a whole number") << 32)
        .collect();
    let mut file = File::open(&words[1]).expect("the input can be opened");
    let size = file.metadata().map_or(0, |about| about.len() as usize);
    let mut bytes = Vec::with_capacity(size + SLACK + 1);
    file.read_to_end(&mut bytes).expect("the input can be read");
    bytes.resize(bytes.len() + SLACK, 0);
    let mut mesh = match read(&bytes) {
        Ok(mesh) => mesh,
        Err(line) => {
            eprintln!("plain: line {line}");
            return ExitCode::from(8);
        }
    };
    drop(bytes);
    for point in &mut mesh.points {
        for (raw, by) in point.iter_mut().zip(&offset) {
            *raw = raw.saturating_add(*by);
        }
    }
    let status = match write(io::stdout().lock(), &mesh) {
        Ok(()) => 0,
        Err(_) => 5,
    };
    // The system frees what is left, with no time for it here.
    std::process::exit(status)
}
