//! Names and edges whose hashes collide, for a hash with a fixed seed that multiplies words to 128
//! bits and joins the halves: `colliding names COUNT BITS` prints names of six letters and digits,
//! `colliding edges COUNT BITS` pairs of vertices, each on a line. A table joins the halves of a hash
//! of 64 bits once more, and the lowest BITS of what comes out are zero for all of them.

use std::env;
use std::io::{self, BufWriter, Write};

const SEED: u64 = 0x243f_6a88_85a3_08d3;
const FACTOR: u64 = 0x9e37_79b9_7f4a_7c15;

/// The hash of up to eight bytes, which come as one number, behind those of a state.
fn with_word(state: u64, word: u64, len: u64) -> u64 {
    let product = (state ^ word) as u128 * (FACTOR ^ (2 * len)) as u128;
    product as u64 ^ (product >> 64) as u64
}

/// A number of 32 bits, and bytes from four to eight, are read as two overlapping halves.
fn with_number(state: u64, number: u32) -> u64 {
    with_word(state, number as u64 | (number as u64) << 32, 4)
}

fn with_name(name: &[u8; 6]) -> u64 {
    let half = |at: usize| u32::from_le_bytes(name[at..at + 4].try_into().unwrap()) as u64;
    // The hash of a text ends with that of one more byte, which is read three times.
    with_word(with_word(SEED, half(0) | half(2) << 32, 6), 0xff_ffff, 1)
}

/// Where the search of a table begins at such a hash, but for the size of the table.
fn start(hash: u64) -> u64 {
    hash ^ hash >> 32
}

fn names(out: &mut impl Write, count: usize, mask: u64) -> io::Result<()> {
    const LETTERS: &[u8; 36] = b"abcdefghijklmnopqrstuvwxyz0123456789";
    let mut found = 0;
    for number in 0..36u64.pow(6) {
        let mut rest = number;
        let name = [(); 6].map(|()| {
            let letter = LETTERS[(rest % 36) as usize];
            rest /= 36;
            letter
        });
        if name[0].is_ascii_lowercase() && start(with_name(&name)) & mask == 0 {
            out.write_all(&name)?;
            out.write_all(b"\n")?;
            found += 1;
            if found == count {
                break;
            }
        }
    }
    Ok(())
}

fn edges(out: &mut impl Write, count: usize, mask: u64, vertices: u32) -> io::Result<()> {
    let mut found = 0;
    for lesser in 0..vertices {
        let state = with_number(SEED, lesser);
        for greater in lesser + 1..vertices {
            if start(with_number(state, greater)) & mask == 0 {
                writeln!(out, "{} {}", lesser + 1, greater + 1)?;
                found += 1;
                if found == count {
                    return Ok(());
                }
            }
        }
    }
    Ok(())
}

fn main() -> io::Result<()> {
    let words: Vec<String> = env::args().collect();
    let count = words[2].parse().expect("a count");
    let mask = (1u64 << words[3].parse::<u32>().expect("a count of bits")) - 1;
    let mut out = BufWriter::new(io::stdout().lock());
    match words[1].as_str() {
        "names" => names(&mut out, count, mask),
        _ => edges(&mut out, count, mask, 100_000),
    }
}
