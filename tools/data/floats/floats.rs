//! The same with rustc.
use std::hint::black_box;
use std::io::{self, BufWriter, Cursor, Read, Write};

// What `x bench floats` counts: each float so many times, into a buffer.
fn count(input: &str, turns: u64) -> u64 {
    let mut length = 0;
    for line in input.lines() {
        let (bits, decimals) = line.split_once(' ').map_or((line, None), |(bits, decimals)| (bits, decimals.parse::<usize>().ok()));
        let x = f64::from_bits(u64::from_str_radix(bits, 16).unwrap());
        for _turn in 0..turns {
            let mut buffer = [0; 400];
            let mut cursor = Cursor::new(&mut buffer[..]);
            match black_box(decimals) {
                None => write!(cursor, "{:?}", black_box(x)).unwrap(),
                Some(decimals) => write!(cursor, "{:.*}", decimals, black_box(x)).unwrap(),
            }
            length += cursor.position();
        }
    }
    length
}

fn write_fixed<W: Write>(output: &mut W, bits: &str, decimals: usize) {
    if bits.len() == 16 {
        let x = f64::from_bits(u64::from_str_radix(bits, 16).unwrap());
        writeln!(output, "{x:.decimals$}").unwrap();
    } else {
        let x = f32::from_bits(u32::from_str_radix(bits, 16).unwrap());
        writeln!(output, "{x:.decimals$}").unwrap();
    }
}

fn main() {
    let arguments: Vec<String> = std::env::args().skip(1).collect();
    let mut input = String::new();
    io::stdin().read_to_string(&mut input).unwrap();
    let mut output = BufWriter::new(io::stdout().lock());
    if let Some(turns) = arguments.first() {
        write!(output, "{}", count(&input, u64::from_str_radix(turns, 16).unwrap())).unwrap();
        return;
    }
    for line in input.lines() {
        if let Some((bits, decimals)) = line.split_once(' ') {
            write_fixed(&mut output, bits, decimals.parse().unwrap());
        } else if line.len() == 16 {
            let x = f64::from_bits(u64::from_str_radix(line, 16).unwrap());
            writeln!(output, "{x:?} {x}").unwrap();
        } else {
            let x = f32::from_bits(u32::from_str_radix(line, 16).unwrap());
            writeln!(output, "{x:?} {x}").unwrap();
        }
    }
}
