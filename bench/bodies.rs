//! Makes Play bodies and puts them into chunks.

/// Numbers that look random, the same in each run.
pub struct Numbers(pub u64);

impl Numbers {
    pub fn next(&mut self) -> u64 {
        self.0 ^= self.0 << 13;
        self.0 ^= self.0 >> 7;
        self.0 ^= self.0 << 17;
        self.0
    }

    pub fn below(&mut self, limit: usize) -> usize {
        (self.next() % limit as u64) as usize
    }
}

fn put_fields(body: &mut Vec<u8>, kind: u8, location: u32, incarnation: u8, flags: u8, payload: usize) {
    let length = (payload + 8) as u16;
    body.extend([0x24, kind]);
    body.extend(length.to_le_bytes());
    body.extend(location.to_le_bytes());
    body.extend([incarnation, flags]);
    body.extend(length.to_le_bytes());
}

fn put_payload(body: &mut Vec<u8>, numbers: &mut Numbers, payload: usize) {
    let end = body.len() + payload;
    while body.len() < end {
        let eight = numbers.next().to_le_bytes();
        let n = eight.len().min(end - body.len());
        body.extend(&eight[..n]);
    }
}

pub fn put_reason(body: &mut Vec<u8>, kind: u8, reason: u32) {
    body.extend([0x24, kind, 4, 0]);
    body.extend(reason.to_le_bytes());
}

/// A `$D`, `$H` or `$M` with a payload.
pub fn put_packet(body: &mut Vec<u8>, numbers: &mut Numbers, kind: u8, incarnation: u8, flags: u8, payload: usize) {
    let location = numbers.next() as u32;
    put_fields(body, kind, location, incarnation, flags, payload);
    put_payload(body, numbers, payload);
}

/// A Play body of about `length` bytes in `entries` entries: each has a metadata packet, a header in three parts and data
/// packets of `packet` bytes, every 50th of them stale.
pub fn play_body(length: usize, packet: usize, entries: usize) -> Vec<u8> {
    let mut numbers = Numbers(0x1234_5678_9ABC_DEF1);
    let mut body = Vec::with_capacity(length + 8 * packet + 4096 * entries);
    for entry in 0..entries {
        let incarnation = entry as u8;
        if entry > 0 {
            put_reason(&mut body, b'C', 0);
        }
        put_packet(&mut body, &mut numbers, b'M', incarnation, 0, 100);
        for flags in [0x04, 0x00, 0x08] {
            put_packet(&mut body, &mut numbers, b'H', incarnation, flags, 500);
        }
        let mut sent = 0;
        while body.len() < length / entries * (entry + 1) || sent == 0 {
            let of = if sent % 50 == 49 { incarnation.wrapping_add(1) } else { incarnation };
            put_packet(&mut body, &mut numbers, b'D', of, sent as u8, packet - 12);
            sent += 1;
        }
        put_reason(&mut body, b'E', if entry + 1 < entries { 1 } else { 0 });
    }
    body
}

/// The body in chunks of `chunk` bytes.
pub fn chunked(body: &[u8], chunk: usize) -> Vec<u8> {
    let mut out = Vec::with_capacity(body.len() + (body.len() / chunk + 2) * 12);
    for data in body.chunks(chunk) {
        out.extend(format!("{:x}\r\n", data.len()).bytes());
        out.extend(data);
        out.extend(b"\r\n");
    }
    out.extend(b"0\r\n\r\n");
    out
}

/// The body in chunks of many lengths, with extensions, digits of both cases and a trailer.
pub fn chunked_oddly(body: &[u8], numbers: &mut Numbers) -> Vec<u8> {
    let mut out = Vec::new();
    let mut rest = body;
    while !rest.is_empty() {
        let n = (1 + numbers.below(40)).min(rest.len());
        let size = match numbers.below(3) {
            0 => format!("{n:x}"),
            1 => format!("{n:X}"),
            _ => format!("{n:08X}"),
        };
        out.extend(size.bytes());
        if numbers.below(8) == 0 {
            out.push(b';');
            let length = [0, 1, 20, 254, 255, 256][numbers.below(6)];
            out.resize(out.len() + length, b'x');
        }
        out.extend(b"\r\n");
        out.extend(&rest[..n]);
        out.extend(b"\r\n");
        rest = &rest[n..];
    }
    out.extend(b"0\r\n");
    match numbers.below(6) {
        0 => out.extend(b"Name: value\r\n"),
        1 => out.extend(b"\r\rb: \n\r\n"),
        2 => {
            let length = 1017 + numbers.below(6);
            out.resize(out.len() + length, b'y');
            out.extend(b"\r\n");
        }
        _ => {}
    }
    out.extend(b"\r\n");
    out
}
