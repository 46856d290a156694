//! The functions of the crate `itoa` that are used.

/// Writes the digits so that they end at `end`, and returns where they start.
#[inline]
pub fn write_digits(n: u64, buf: &mut [u8], end: usize) -> usize {
    let mut left = n;
    let mut at = end;
    loop {
        at -= 1;
        buf[at] = b'0' + (left % 10) as u8;
        left /= 10;
        if left == 0 {
            return at;
        }
    }
}

/// The text of a number.
pub struct Buffer([u8; 40]);

impl Default for Buffer {
    fn default() -> Buffer {
        Buffer([0; 40])
    }
}

impl Buffer {
    pub fn new() -> Buffer {
        Buffer::default()
    }

    pub fn format(&mut self, n: impl Into<u128>) -> &str {
        let mut left: u128 = n.into();
        let mut at = self.0.len();
        loop {
            at -= 1;
            self.0[at] = b'0' + (left % 10) as u8;
            left /= 10;
            if left == 0 {
                break;
            }
        }
        match std::str::from_utf8(&self.0[at..]) {
            Ok(text) => text,
            Err(_) => unreachable!(),
        }
    }
}
