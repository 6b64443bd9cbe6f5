//! A PNG file of up to 256 colours, written without a library.
//!
//! The picture is packed as deflate asks (RFC 1951): runs that were seen before are named by distance and length, in one block
//! with the fixed codes.

/// A picture: each pixel names one of the colours.
pub struct Image {
    /// Pixels in a line.
    pub width: usize,
    /// Line by line, from the top.
    pub pixels: Vec<u8>,
    /// Red, green and blue.
    pub colours: Vec<[u8; 3]>,
}

/// The picture as a PNG file.
pub fn write(image: &Image) -> Vec<u8> {
    let height = image.pixels.len() / image.width;
    let mut header = Vec::new();
    header.extend((image.width as u32).to_be_bytes());
    header.extend((height as u32).to_be_bytes());
    header.extend([8, 3, 0, 0, 0]); // eight bits, by palette
    let mut lines = Vec::new();
    for line in image.pixels.chunks(image.width) {
        lines.push(0); // no filter
        lines.extend(line);
    }
    let mut file = b"\x89PNG\r\n\x1a\n".to_vec();
    chunk(&mut file, b"IHDR", &header);
    chunk(&mut file, b"PLTE", &image.colours.concat());
    chunk(&mut file, b"IDAT", &zlib(&lines));
    chunk(&mut file, b"IEND", &[]);
    file
}

fn chunk(file: &mut Vec<u8>, name: &[u8; 4], data: &[u8]) {
    file.extend((data.len() as u32).to_be_bytes());
    let start = file.len();
    file.extend(name);
    file.extend(data);
    let sum = crc(&file[start..]);
    file.extend(sum.to_be_bytes());
}

fn crc(bytes: &[u8]) -> u32 {
    let mut sum = u32::MAX;
    for &byte in bytes {
        sum ^= u32::from(byte);
        for _ in 0..8 {
            sum = (sum >> 1) ^ (0xedb8_8320 & (sum & 1).wrapping_neg());
        }
    }
    !sum
}

fn adler(bytes: &[u8]) -> u32 {
    let (mut a, mut b) = (1, 0);
    for &byte in bytes {
        a = (a + u32::from(byte)) % 65521;
        b = (b + a) % 65521;
    }
    b << 16 | a
}

fn zlib(bytes: &[u8]) -> Vec<u8> {
    let mut packed = vec![0x78, 0x9c];
    packed.extend(deflate(bytes));
    packed.extend(adler(bytes).to_be_bytes());
    packed
}

const SHORTEST: usize = 3;
const LONGEST: usize = 258;
const WINDOW: usize = 32768;
/// How many earlier places with the same three bytes are tried.
const TRIES: usize = 200;

/// Where the three bytes at a place were last seen, and for each place the one before it.
struct Seen {
    last: Vec<usize>,
    before: Vec<usize>,
}

const NONE: usize = usize::MAX;

impl Seen {
    fn key(bytes: &[u8], at: usize) -> usize {
        usize::from(bytes[at]) << 16 | usize::from(bytes[at + 1]) << 8 | usize::from(bytes[at + 2])
    }

    fn note(&mut self, bytes: &[u8], at: usize) {
        if at + SHORTEST <= bytes.len() {
            let last = &mut self.last[Seen::key(bytes, at)];
            self.before[at] = *last;
            *last = at;
        }
    }

    /// The longest run that was seen before and goes on here: length and distance.
    fn longest(&self, bytes: &[u8], at: usize) -> Option<(usize, usize)> {
        if at + SHORTEST > bytes.len() {
            return None;
        }
        let most = LONGEST.min(bytes.len() - at);
        let mut best = None;
        let mut place = self.last[Seen::key(bytes, at)];
        for _ in 0..TRIES {
            if place == NONE || at - place > WINDOW || best.is_some_and(|(length, _)| length == most) {
                break;
            }
            let length = (0..most).take_while(|&k| bytes[place + k] == bytes[at + k]).count();
            if best.is_none_or(|(longest, _)| length > longest) {
                best = Some((length, at - place));
            }
            place = self.before[place];
        }
        best
    }
}

fn deflate(bytes: &[u8]) -> Vec<u8> {
    let mut seen = Seen { last: vec![NONE; 1 << 24], before: vec![NONE; bytes.len()] };
    let mut bits = Bits::default();
    bits.push(0b011, 3); // the last block, fixed codes
    let mut at = 0;
    while at < bytes.len() {
        let length = match seen.longest(bytes, at) {
            Some((length, distance)) => {
                bits.repeat(length, distance);
                length
            }
            None => {
                bits.symbol(usize::from(bytes[at]));
                1
            }
        };
        (at..at + length).for_each(|place| seen.note(bytes, place));
        at += length;
    }
    bits.symbol(256);
    bits.finish()
}

/// Bits, the lowest of a byte first.
#[derive(Default)]
struct Bits {
    bytes: Vec<u8>,
    held: u64,
    count: usize,
}

impl Bits {
    fn push(&mut self, value: usize, count: usize) {
        self.held |= (value as u64) << self.count;
        self.count += count;
        while self.count >= 8 {
            self.bytes.push(self.held as u8);
            self.held >>= 8;
            self.count -= 8;
        }
    }

    /// A code word, whose highest bit comes first.
    fn code(&mut self, code: usize, count: usize) {
        self.push(code.reverse_bits() >> (usize::BITS as usize - count), count);
    }

    /// A byte, the end (256) or a class of lengths, by the fixed codes.
    fn symbol(&mut self, symbol: usize) {
        match symbol {
            0..=143 => self.code(0x30 + symbol, 8),
            144..=255 => self.code(0x190 + symbol - 144, 9),
            256..=279 => self.code(symbol - 256, 7),
            _ => self.code(0xc0 + symbol - 280, 8),
        }
    }

    fn repeat(&mut self, length: usize, distance: usize) {
        if length == LONGEST {
            self.symbol(285);
        } else {
            let (class, extra, rest) = class(length - SHORTEST, 4);
            self.symbol(257 + class);
            self.push(rest, extra);
        }
        let (class, extra, rest) = class(distance - 1, 2);
        self.code(class, 5);
        self.push(rest, extra);
    }

    fn finish(mut self) -> Vec<u8> {
        if self.count > 0 {
            self.push(0, 8 - self.count);
        }
        self.bytes
    }
}

/// Lengths and distances come in classes: `each` classes for every doubling. The class, its count of extra bits, and those bits.
fn class(value: usize, each: usize) -> (usize, usize, usize) {
    if value < 2 * each {
        return (value, 0, 0);
    }
    let step = each.ilog2() as usize;
    let extra = value.ilog2() as usize - step;
    (each * extra + (value >> extra), extra, value & ((1 << extra) - 1))
}
