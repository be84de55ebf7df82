//! Answers, written straight to the front of the caller's buffer.

pub struct Answer<'a> {
    room: &'a mut [u8],
    written: usize,
}

impl<'a> Answer<'a> {
    pub fn new(room: &'a mut [u8]) -> Self {
        Answer { room, written: 0 }
    }

    pub fn written(&self) -> usize {
        self.written
    }

    pub fn bytes(&mut self, bytes: &[u8]) {
        let end = self.written + bytes.len();
        self.room[self.written..end].copy_from_slice(bytes);
        self.written = end;
    }

    pub fn byte(&mut self, byte: u8) {
        self.room[self.written] = byte;
        self.written += 1;
    }

    pub fn line_end(&mut self) {
        self.bytes(b"\r\n");
    }

    /// A number in so many digits, zeros in front.
    pub fn digits(&mut self, mut number: u64, width: usize) {
        let end = self.written + width;
        for place in self.room[self.written..end].iter_mut().rev() {
            *place = b'0' + (number % 10) as u8;
            number /= 10;
        }
        self.written = end;
    }

    /// Sign and so many digits.
    pub fn signed(&mut self, number: i64, width: usize) {
        self.byte(if number < 0 { b'-' } else { b'+' });
        self.digits(number.unsigned_abs(), width);
    }
}
