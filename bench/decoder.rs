//! A decoder of Play bodies written by hand, to be compared with the proved library.
//!
//! It checks the same rules (`docs/RULES.md`, `docs/NUMBERS.md`), copies each payload once into the work buffer, and answers the
//! same checksum. It was written from the rules and shares no code with the library.

use std::hint::black_box;
use std::marker::PhantomData;

/// Why a carrier broke off: cause and place; its depth is 0 here.
#[derive(Clone, Copy)]
pub struct Broken {
    pub cause: u8,
    pub place: u64,
}

/// So many bytes came, and then the end: clean (`None`) or broken.
pub struct Short {
    pub came: usize,
    pub ending: Option<Broken>,
}

/// Where body bytes come from.
pub trait Source {
    /// Fills `out`, or says how far it came.
    fn read(&mut self, out: &mut [u8]) -> Result<(), Short>;
}

/// How bytes are copied.
pub trait Copying {
    fn copy(to: &mut [u8], from: &[u8]);
}

/// By a call of memcpy.
pub struct ByMemcpy;

impl Copying for ByMemcpy {
    #[inline]
    fn copy(to: &mut [u8], from: &[u8]) {
        to.copy_from_slice(from);
    }
}

/// By a loop over bytes, between stretches of which the compiler does not know that they are apart: as in the library.
pub struct ByLoop;

impl Copying for ByLoop {
    #[inline]
    fn copy(to: &mut [u8], from: &[u8]) {
        let length = to.len();
        let from = black_box(from[..length].as_ptr());
        let to = black_box(to.as_mut_ptr());
        for at in 0..length {
            // both stretches have `length` bytes
            unsafe { *to.add(at) = *from.add(at) };
        }
    }
}

/// The bytes as they are.
pub struct Plain<'a, How> {
    bytes: &'a [u8],
    how: PhantomData<How>,
}

impl<'a, How> Plain<'a, How> {
    pub fn new(bytes: &'a [u8]) -> Self {
        Plain { bytes, how: PhantomData }
    }
}

impl<How: Copying> Source for Plain<'_, How> {
    #[inline]
    fn read(&mut self, out: &mut [u8]) -> Result<(), Short> {
        let came = out.len().min(self.bytes.len());
        let (now, rest) = self.bytes.split_at(came);
        How::copy(&mut out[..came], now);
        self.bytes = rest;
        if came < out.len() { Err(Short { came, ending: None }) } else { Ok(()) }
    }
}

pub const BAD_SIZE_LINE: u8 = 1;
pub const NINTH_DIGIT: u8 = 2;
pub const LONG_EXTENSION: u8 = 3;
pub const NO_LINE_END: u8 = 4;
pub const LONG_TRAILER: u8 = 5;
pub const ENDS_EARLY: u8 = 6;

/// The data of a chunked body.
pub struct Chunked<'a, How> {
    bytes: &'a [u8],
    at: usize,
    /// data bytes to come of this chunk
    left: usize,
    first: bool,
    how: PhantomData<How>,
}

impl<'a, How> Chunked<'a, How> {
    pub fn new(bytes: &'a [u8]) -> Self {
        Chunked { bytes, at: 0, left: 0, first: true, how: PhantomData }
    }

    #[inline]
    fn broken(&self, cause: u8) -> Option<Broken> {
        Some(Broken { cause, place: self.at as u64 })
    }

    #[inline]
    fn byte(&mut self) -> Result<u8, Option<Broken>> {
        match self.bytes.get(self.at) {
            Some(&byte) => {
                self.at += 1;
                Ok(byte)
            }
            None => Err(self.broken(ENDS_EARLY)),
        }
    }

    #[inline]
    fn expect(&mut self, wanted: u8, cause: u8) -> Result<(), Option<Broken>> {
        if self.byte()? == wanted { Ok(()) } else { Err(self.broken(cause)) }
    }

    /// Reads up to the data of the next chunk; an error is the ending.
    fn next_chunk(&mut self) -> Result<(), Option<Broken>> {
        if !self.first {
            self.expect(b'\r', NO_LINE_END)?;
            self.expect(b'\n', NO_LINE_END)?;
        }
        self.first = false;
        let mut size = 0usize;
        let mut digits = 0;
        let behind = loop {
            let byte = self.byte()?;
            let digit = match byte {
                b'0'..=b'9' => byte - b'0',
                b'A'..=b'F' => byte - b'A' + 10,
                b'a'..=b'f' => byte - b'a' + 10,
                _ => break byte,
            };
            if digits == 8 {
                return Err(self.broken(NINTH_DIGIT));
            }
            digits += 1;
            size = size * 16 + digit as usize;
        };
        if digits == 0 {
            return Err(self.broken(BAD_SIZE_LINE));
        }
        match behind {
            b'\r' => {}
            b';' => self.extension()?,
            _ => return Err(self.broken(BAD_SIZE_LINE)),
        }
        self.expect(b'\n', BAD_SIZE_LINE)?;
        if size == 0 {
            return Err(self.trailer());
        }
        self.left = size;
        Ok(())
    }

    /// Behind the semicolon, through the CR.
    fn extension(&mut self) -> Result<(), Option<Broken>> {
        let mut length = 1;
        loop {
            match self.byte()? {
                b'\r' => return Ok(()),
                b'\n' => return Err(self.broken(BAD_SIZE_LINE)),
                _ if length == 256 => return Err(self.broken(LONG_EXTENSION)),
                _ => length += 1,
            }
        }
    }

    /// Through the blank line; its ending.
    fn trailer(&mut self) -> Option<Broken> {
        let start = self.at;
        let mut line = start;
        loop {
            let byte = match self.byte() {
                Ok(byte) => byte,
                Err(ending) => return ending,
            };
            if byte == b'\n' && self.at - start >= 2 && self.bytes[self.at - 2] == b'\r' {
                if self.at - 2 == line {
                    return None;
                }
                line = self.at;
            }
            if self.at - start == 1024 {
                return self.broken(LONG_TRAILER);
            }
        }
    }
}

impl<How: Copying> Source for Chunked<'_, How> {
    #[inline]
    fn read(&mut self, out: &mut [u8]) -> Result<(), Short> {
        let mut came = 0;
        while came < out.len() {
            if self.left == 0 {
                if let Err(ending) = self.next_chunk() {
                    return Err(Short { came, ending });
                }
            }
            let n = self.left.min(out.len() - came).min(self.bytes.len() - self.at);
            if n == 0 {
                return Err(Short { came, ending: self.broken(ENDS_EARLY) });
            }
            How::copy(&mut out[came..came + n], &self.bytes[self.at..self.at + n]);
            came += n;
            self.at += n;
            self.left -= n;
        }
        Ok(())
    }
}

/// Where in a Play body.
#[derive(Clone, Copy)]
enum Position {
    HeaderDue,
    MetadataOf(u8),
    HeaderRun(u8),
    InForce(u8),
    EntryOver,
    BodyOver,
}

#[derive(Clone, Copy)]
enum Letter {
    StreamChange = 0,
    Data = 1,
    EndOfStream = 2,
    Header = 3,
    Metadata = 4,
    Stale = 6,
}

/// A fault: number, place, and the carrier's own.
pub struct Fault {
    pub number: u8,
    pub place: u64,
    pub carrier: Option<Broken>,
}

struct Decoder {
    place: u64,
    entry: u8,
    at: Position,
    sum: u64,
}

#[inline]
fn mixed(sum: u64, number: u64) -> u64 {
    sum.wrapping_mul(0x9E37_79B9_7F4A_7C15).wrapping_add(number)
}

impl Decoder {
    fn fault(&self, number: u8) -> Fault {
        Fault { number, place: self.place, carrier: None }
    }

    fn short(&self, before: usize, short: Short) -> Fault {
        let number = if short.ending.is_some() { 29 } else { 28 };
        let place = self.place + (before + short.came) as u64;
        Fault { number, place, carrier: short.ending }
    }

    /// Reads one packet; false at the clean end.
    #[inline]
    fn step(&mut self, source: &mut impl Source, work: &mut [u8]) -> Result<bool, Fault> {
        let mut head = [0; 4];
        if let Err(short) = source.read(&mut head) {
            let may_end = matches!(self.at, Position::EntryOver | Position::BodyOver);
            if short.ending.is_none() && short.came == 0 && may_end {
                return Ok(false);
            }
            return Err(self.short(0, short));
        }
        if head[0] != 0x24 {
            return Err(self.fault(21));
        }
        let length = u16::from_le_bytes([head[2], head[3]]) as usize;
        let fixed = match head[1] {
            b'C' | b'E' => 4,
            b'D' | b'H' | b'M' => 8,
            b'P' => 0,
            _ => return Err(self.fault(22)),
        };
        if length < fixed || (fixed == 4 && length != 4) {
            return Err(self.fault(23));
        }
        let mut fields = [0; 8];
        source.read(&mut fields[..fixed]).map_err(|short| self.short(4, short))?;
        let payload = length - fixed;
        source.read(&mut work[..payload]).map_err(|short| self.short(4 + fixed, short))?;
        let number = u32::from_le_bytes([fields[0], fields[1], fields[2], fields[3]]);
        let (location, incarnation, flags, size, reason) = match fixed {
            8 => (number, fields[4], fields[5], u16::from_le_bytes([fields[6], fields[7]]), 0),
            4 => (0, 0, 0, 0, number),
            _ => (0, 0, 0, 0, 0),
        };
        if fixed == 8 && size as usize != length {
            return Err(self.fault(24));
        }
        let letter = self.judge(head[1], incarnation, flags, reason)?;
        let mut sum = self.sum;
        for told in [
            letter as u64,
            self.place,
            self.entry as u64,
            location as u64,
            incarnation as u64,
            flags as u64,
            size as u64,
            reason as u64,
            payload as u64,
        ] {
            sum = mixed(sum, told);
        }
        if let Some(last) = payload.checked_sub(1) {
            for place in [0, payload / 2, last] {
                sum = mixed(sum, work[place] as u64);
            }
        }
        self.sum = sum;
        self.place += 4 + length as u64;
        Ok(true)
    }

    /// Whether the packet may come here; moves on.
    #[inline]
    fn judge(&mut self, kind: u8, incarnation: u8, flags: u8, reason: u32) -> Result<Letter, Fault> {
        let (letter, next) = match (kind, self.at) {
            (b'D', Position::InForce(of)) if incarnation == of => (Letter::Data, self.at),
            (b'D', Position::InForce(_)) => (Letter::Stale, self.at),
            (b'E', Position::InForce(_)) => {
                (Letter::EndOfStream, if reason == 1 { Position::EntryOver } else { Position::BodyOver })
            }
            (b'C', Position::EntryOver) => (Letter::StreamChange, Position::HeaderDue),
            (b'M', Position::HeaderDue) => (Letter::Metadata, Position::MetadataOf(incarnation)),
            (b'M', Position::MetadataOf(of)) => {
                if incarnation != of {
                    return Err(self.fault(27));
                }
                (Letter::Metadata, self.at)
            }
            (b'H', Position::HeaderDue | Position::MetadataOf(_) | Position::HeaderRun(_)) => {
                let (of, opens) = match self.at {
                    Position::MetadataOf(of) => (of, true),
                    Position::HeaderRun(of) => (of, false),
                    _ => (incarnation, true),
                };
                let last = match flags {
                    0x04 if opens => false,
                    0x0C if opens => true,
                    0x00 if !opens => false,
                    0x08 if !opens => true,
                    _ => return Err(self.fault(25)),
                };
                if incarnation != of {
                    return Err(self.fault(27));
                }
                if last {
                    self.entry = self.entry.checked_add(1).ok_or(self.fault(30))?;
                }
                (Letter::Header, if last { Position::InForce(of) } else { Position::HeaderRun(of) })
            }
            _ => return Err(self.fault(26)),
        };
        self.at = next;
        Ok(letter)
    }
}

/// Reads a Play body to its end or fault: the checksum, and the fault.
pub fn decode(mut source: impl Source, work: &mut [u8]) -> (u64, Option<Fault>) {
    if work.len() < 65_535 {
        return (0, None);
    }
    let mut decoder = Decoder { place: 0, entry: 0, at: Position::HeaderDue, sum: 1 };
    loop {
        match decoder.step(&mut source, work) {
            Ok(true) => {}
            Ok(false) => return (mixed(mixed(decoder.sum, decoder.place), 1), None),
            Err(fault) => {
                let mut sum = mixed(mixed(decoder.sum, fault.number as u64), fault.place);
                if let Some(broken) = fault.carrier {
                    sum = mixed(mixed(mixed(sum, broken.cause as u64), broken.place), 0);
                }
                return (mixed(sum, 0), Some(fault));
            }
        }
    }
}
