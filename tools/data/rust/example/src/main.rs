use ufmt::{Formatter, debug_into, fields, uDebug, uWrite};

struct Reading {
    channel: u8,
    celsius: f32,
}

impl uDebug for Reading {
    fn fmt<W: uWrite>(&self, f: &mut Formatter<W>) -> Result<(), W::Error> {
        fields!(f, self, Reading { channel, celsius })
    }
}

fn main() {
    let mut buffer = [0; 64];
    let reading = Reading { channel: 3, celsius: -4.5 };
    let length = debug_into(&mut buffer, &reading).unwrap_or(0);
    assert_eq!(&buffer[..length], b"Reading { channel: 3, celsius: -4.5 }");
}
