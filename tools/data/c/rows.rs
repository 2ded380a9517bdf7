//! Prints what Rust's own formatting makes of values, as rows of tools/data/c/rows.tsv: a call, its
//! arguments, and what it is to write. `x try c --write` runs it. In a text each byte but a letter, a
//! digit and some marks is a `%` and two hexadecimal digits.

fn escaped(text: &str) -> String {
    let plain = |byte: &u8| byte.is_ascii_graphic() && *byte != b'%';
    let one = |byte: u8| {
        if plain(&byte) {
            char::from(byte).to_string()
        } else {
            format!("%{byte:02x}")
        }
    };
    if text.is_empty() {
        "%".to_string()
    } else {
        text.bytes().map(one).collect()
    }
}

fn row(call: &str, arguments: &[String], text: &str) {
    println!("{call} {} = {}", arguments.join(" "), escaped(text));
}

fn quotes() {
    for code in 0..128 {
        let text = format!("a{}b", char::from(code));
        row("quote", &[escaped(&text)], &format!("{text:?}"));
    }
    for text in [
        "",
        "\"",
        "'",
        "\\",
        "é",
        "中文 ok",
        "🦀",
        "\t\r\n\0\u{1b}",
        "a line\nand \"another\"\n",
    ] {
        row("quote", &[escaped(text)], &format!("{text:?}"));
    }
}

fn decimals() {
    for power in 0..20 {
        for number in [10_u64.pow(power) - 1, 10_u64.pow(power)] {
            row("unsigned", &[number.to_string()], &format!("{number}"));
        }
    }
    row("unsigned", &[u64::MAX.to_string()], &format!("{}", u64::MAX));
    for number in [0, 7, -1, -10, 99, -100, i64::MAX, i64::MIN, i64::MIN + 1] {
        row("signed", &[number.to_string()], &format!("{number}"));
    }
}

fn fixed() {
    let numbers = [0.0, -0.0, 0.5, 1.5, 2.5, 2.675, -1.005, 0.125, 1e21, 5e-324, f64::MAX, f64::MIN_POSITIVE, 9.995, f64::INFINITY, f64::NEG_INFINITY, f64::NAN];
    for number in numbers {
        for decimals in [0, 1, 2, 3, 17, 64, 330, 1074, 1100] {
            let words = [number.to_bits().to_string(), decimals.to_string()];
            row("float_fixed", &words, &format!("{number:.decimals$}"));
        }
    }
}

fn hexadecimals() {
    let styled = |number: u64, style: [u64; 4], text: String| {
        let words: Vec<String> = [number].iter().chain(&style).map(u64::to_string).collect();
        row("hexadecimal", &words, &text);
    };
    for number in [0, 1, 10, 255, 0xbeef, u64::MAX] {
        styled(number, [0, 0, 0, 0], format!("{number:x}"));
        styled(number, [0, 32, 1, 0], format!("{number:X}"));
        styled(number, [0, 48, 0, 1], format!("{number:#x}"));
        styled(number, [1, 32, 0, 1], format!("{number:#1x}"));
        styled(number, [8, 48, 0, 0], format!("{number:08x}"));
        styled(number, [10, 48, 0, 1], format!("{number:#010x}"));
        styled(number, [12, 32, 0, 1], format!("{number:#12x}"));
        styled(number, [12, 32, 1, 0], format!("{number:12X}"));
        styled(number, [70, 48, 0, 0], format!("{number:070x}"));
        styled(number, [9, 42, 0, 0], format!("{number:*>9x}"));
    }
}

fn binaries() {
    let styled = |number: u64, style: [u64; 4], text: String| {
        let words: Vec<String> = [number].iter().chain(&style).map(u64::to_string).collect();
        row("binary", &words, &text);
    };
    for number in [0, 5, u64::MAX] {
        styled(number, [0, 0, 0, 0], format!("{number:b}"));
        styled(number, [0, 48, 1, 1], format!("{number:#b}"));
        styled(number, [8, 48, 0, 0], format!("{number:08b}"));
        styled(number, [12, 48, 0, 1], format!("{number:#012b}"));
        styled(number, [40, 32, 0, 1], format!("{number:#40b}"));
        styled(number, [100, 32, 1, 0], format!("{number:100b}"));
    }
}

fn columns() {
    for text in ["", "a", "ab", "é中", "eight ch", "longer than eight", "🦀🦀🦀"] {
        for width in [0, 3, 8, 9] {
            let styled = |fill: char, align: u8, whole: String| {
                let words = [
                    escaped(text),
                    width.to_string(),
                    u32::from(fill).to_string(),
                    align.to_string(),
                ];
                row("in_column", &words, &whole);
            };
            styled(' ', 0, format!("{text:<width$}"));
            styled(' ', 1, format!("{text:^width$}"));
            styled(' ', 2, format!("{text:>width$}"));
            styled('.', 0, format!("{text:.<width$}"));
            styled('é', 1, format!("{text:é^width$}"));
            styled('🦀', 2, format!("{text:🦀>width$}"));
        }
    }
}

/// The first line in which two texts differ, by the lines that the standard library cuts them into.
fn first_difference<'a>(
    given: &'a str,
    stored: &'a str,
) -> Option<(usize, Option<&'a str>, Option<&'a str>)> {
    let (given, stored): (Vec<_>, Vec<_>) = (given.split('\n').collect(), stored.split('\n').collect());
    let pair = |line: usize| (line + 1, given.get(line).copied(), stored.get(line).copied());
    (0..given.len().max(stored.len()))
        .map(pair)
        .find(|(_, given, stored)| given != stored)
}

fn differences() {
    let texts = [
        "",
        "\n",
        "a",
        "a\n",
        "a\nb",
        "a\nb\n",
        "a\r\nb",
        "\na",
        "é\n中\n",
        "é\n文\n",
    ];
    for given in texts {
        for stored in texts {
            let words = [escaped(given), escaped(stored)];
            let found = first_difference(given, stored);
            println!(
                "first_difference {} = {}",
                words.join(" "),
                found.map_or(0, |(line, ..)| line)
            );
            let shown = |line: Option<&str>| line.map_or("none".to_string(), |line| format!("{line:?}"));
            let told = |(line, given, stored)| {
                format!("line {line} differs\n given: {}\nstored: {}", shown(given), shown(stored))
            };
            row("difference", &words, &found.map_or(String::new(), told));
        }
    }
}

fn main() {
    quotes();
    decimals();
    fixed();
    hexadecimals();
    binaries();
    columns();
    differences();
}
