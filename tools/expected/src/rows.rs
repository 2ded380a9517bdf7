//! The form of the rows. A row is lines: its id, `? ` and the plain text, and for each line of the pretty text `# ` and
//! that line. Before each row there is an empty line. In texts a control byte and a percent sign are written as `%0A`.
use std::collections::BTreeSet;
use std::fmt::Debug;

#[derive(Default)]
pub struct Rows {
    text: String,
    ids: BTreeSet<String>,
}

impl Rows {
    /// Adds a row. No two rows have one id.
    pub fn add(&mut self, id: &str, value: &dyn Debug) {
        assert!(self.ids.insert(id.to_string()), "two rows have the id {id}");
        self.text.push_str(&format!("\n{id}\n? {}\n", escaped(&format!("{value:?}"))));
        for line in format!("{value:#?}").split('\n') {
            self.text.push_str(format!("# {}", escaped(line)).trim_end());
            self.text.push('\n');
        }
    }

    pub fn text(&self) -> &str {
        &self.text
    }
}

/// The text with each control byte, each percent sign and a space at its end as a percent sign and two digits.
fn escaped(text: &str) -> String {
    let last = text.len().saturating_sub(1);
    let is_escaped = |at: usize, c: char| c.is_ascii_control() || c == '%' || (c == ' ' && at == last);
    let written = |(at, c)| {
        if is_escaped(at, c) {
            format!("%{:02X}", c as u32)
        } else {
            c.to_string()
        }
    };
    text.char_indices().map(written).collect()
}
