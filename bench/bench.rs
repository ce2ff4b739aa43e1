//! Compares the proved library with a decoder written by hand: first that both answer the same, then how fast they are.
mod bodies;
mod decoder;

use bodies::{Numbers, chunked, chunked_oddly, play_body, put_packet, put_reason};
use decoder::{ByLoop, ByMemcpy, Chunked, Copying, Fault, Plain, decode};
use std::collections::BTreeSet;
use std::hint::black_box;
use std::time::{Duration, Instant};

const WORK_LENGTH: usize = 65_535;
const BODY_LENGTH: usize = 64 << 20;

mod library {
    unsafe extern "C" {
        fn receive_play(bytes: *const u8, length: usize, work: *mut u8, work_length: usize) -> u64;
        fn receive_chunked_play(bytes: *const u8, length: usize, work: *mut u8, work_length: usize) -> u64;
    }

    // A slice passes as its pointer and its length; neither function has a `requires`.
    pub fn play(bytes: &[u8], work: &mut [u8]) -> u64 {
        unsafe { receive_play(bytes.as_ptr(), bytes.len(), work.as_mut_ptr(), work.len()) }
    }

    pub fn chunked_play(bytes: &[u8], work: &mut [u8]) -> u64 {
        unsafe { receive_chunked_play(bytes.as_ptr(), bytes.len(), work.as_mut_ptr(), work.len()) }
    }
}

/// The decoder written by hand.
fn by_hand<How: Copying>(bytes: &[u8], in_chunks: bool, work: &mut [u8]) -> (u64, Option<Fault>) {
    if in_chunks { decode(Chunked::<How>::new(bytes), work) } else { decode(Plain::<How>::new(bytes), work) }
}

/// Runs both decoders on inputs, and notes which faults they found.
struct Comparison {
    inputs: usize,
    found: BTreeSet<u8>,
    causes: BTreeSet<u8>,
    ours: Vec<u8>,
    theirs: Vec<u8>,
}

impl Comparison {
    fn new() -> Self {
        Comparison {
            inputs: 0,
            found: BTreeSet::new(),
            causes: BTreeSet::new(),
            ours: vec![0xA5; WORK_LENGTH],
            theirs: vec![0xA5; WORK_LENGTH],
        }
    }

    /// The checksums and the work buffers must be equal.
    fn compare(&mut self, bytes: &[u8], in_chunks: bool) {
        let proved = if in_chunks {
            library::chunked_play(bytes, &mut self.ours)
        } else {
            library::play(bytes, &mut self.ours)
        };
        let (by_hand, fault) = by_hand::<ByMemcpy>(bytes, in_chunks, &mut self.theirs);
        if proved != by_hand || self.ours != self.theirs {
            let (number, place) = fault.map_or((0, 0), |fault| (fault.number, fault.place));
            eprintln!("THE DECODERS DIFFER on input {} (chunks: {in_chunks})", self.inputs);
            eprintln!("library {proved:016x}, by hand {by_hand:016x} (fault {number} at {place})");
            eprintln!("{:02x?}", &bytes[..bytes.len().min(400)]);
            std::process::exit(1);
        }
        self.inputs += 1;
        if let Some(fault) = fault {
            self.found.insert(fault.number);
            self.causes.extend(fault.carrier.map(|broken| broken.cause));
        } else {
            self.found.insert(0);
        }
    }

    fn compare_both(&mut self, body: &[u8], numbers: &mut Numbers) {
        self.compare(body, false);
        let in_chunks = chunked_oddly(body, numbers);
        self.compare(&in_chunks, true);
    }
}

/// One byte or a few are changed, left out, put in or repeated, or the end is cut off.
fn damage(bytes: &[u8], numbers: &mut Numbers) -> Vec<u8> {
    let mut out = bytes.to_vec();
    for _ in 0..1 + numbers.below(2) {
        let at = numbers.below(out.len().max(1)).min(out.len().saturating_sub(1));
        match numbers.below(7) {
            0 => out[at] ^= 1 << numbers.below(8),
            1 => out[at] = numbers.next() as u8,
            2 => out[at] = *b"\r\n;0aG$CDEHMPT".get(numbers.below(14)).unwrap(),
            3 => drop(out.remove(at)),
            4 => out.insert(at, numbers.next() as u8),
            5 => {
                let upto = (at + numbers.below(300)).min(out.len());
                let copy = out[at..upto].to_vec();
                out.splice(at..at, copy);
            }
            _ => out.truncate(at),
        }
        if out.is_empty() {
            out.push(0x24);
        }
    }
    out
}

/// A short body whose packets come in an order that may be lawful or not.
fn shuffled_body(numbers: &mut Numbers) -> Vec<u8> {
    let mut body = Vec::new();
    let lawful = numbers.below(2) == 0;
    put_packet(&mut body, numbers, b'H', 5, 0x0C, 2);
    for _ in 0..numbers.below(12) {
        let payload = numbers.below(30);
        let incarnation = 4 + numbers.below(2) as u8;
        let flags = [0x00, 0x04, 0x08, 0x0C, 0x01][numbers.below(5)];
        match if lawful { 1 } else { numbers.below(7) } {
            0 => put_reason(&mut body, b'E', numbers.below(3) as u32),
            1 => put_packet(&mut body, numbers, b'D', incarnation, flags, payload),
            2 => put_packet(&mut body, numbers, b'H', incarnation, flags, payload),
            3 => put_packet(&mut body, numbers, b'M', incarnation, flags, payload),
            4 => body.extend([0x24, b'P', 2, 0, 1, 2]),
            5 => {
                put_reason(&mut body, b'E', 1);
                put_reason(&mut body, b'C', 7);
            }
            _ => put_reason(&mut body, b'C', 9),
        }
    }
    put_reason(&mut body, b'E', numbers.below(2) as u32);
    body
}

fn compare_small_inputs(comparison: &mut Comparison) {
    let mut numbers = Numbers(0xC0FF_EE00_1234_5677);
    let small = play_body(300, 60, 2);
    comparison.compare_both(&small, &mut numbers);
    // every end cut off, and every byte changed
    let in_chunks = chunked_oddly(&small, &mut numbers);
    for (bytes, chunks) in [(&small, false), (&in_chunks, true)] {
        for length in 0..bytes.len() {
            comparison.compare(&bytes[..length], chunks);
            for change in [0x01, 0x08, 0x80, 0xFF] {
                let mut changed = bytes.clone();
                changed[length] ^= change;
                comparison.compare(&changed, chunks);
            }
        }
    }
    // the limits: 255 headers and 256, extensions of 256 bytes and 257, trailers of 1,024 and 1,025, eight digits and nine
    for entries in [255, 256] {
        let body = play_body(entries * 1900, 60, entries);
        comparison.compare_both(&body, &mut numbers);
    }
    for (opening, filling, closing) in [("5;", 'e', "\r\n"), ("0\r\n", 't', "\r\n\r\n"), ("", '0', "5\r\n")] {
        for length in (0..12).chain(250..260).chain(1015..1030) {
            let line = format!("{opening}{}{closing}", filling.to_string().repeat(length));
            comparison.compare(line.as_bytes(), true);
            // behind a whole body, so that the trailer decides how it ends
            let mut bytes = chunked(&small, 1000);
            bytes.truncate(bytes.len() - 5);
            bytes.extend(line.bytes());
            comparison.compare(&bytes, true);
        }
    }
    // the longest packets
    for packet in [12, 13, 65_538, 65_539] {
        comparison.compare_both(&play_body(packet * 3, packet, 2), &mut numbers);
    }
    for _ in 0..100_000 {
        let body = shuffled_body(&mut numbers);
        comparison.compare_both(&body, &mut numbers);
        let damaged = damage(&body, &mut numbers);
        comparison.compare_both(&damaged, &mut numbers);
        let in_chunks = chunked_oddly(&body, &mut numbers);
        comparison.compare(&damage(&in_chunks, &mut numbers), true);
    }
    // a work buffer that is too short
    let mut short = vec![0; WORK_LENGTH - 1];
    assert_eq!(library::play(&small, &mut short), 0);
    assert_eq!(library::chunked_play(&in_chunks, &mut short), 0);
    assert_eq!(comparison.found, BTreeSet::from([0, 21, 22, 23, 24, 25, 26, 27, 28, 29, 30]), "an answer did not occur");
    assert_eq!(comparison.causes, BTreeSet::from([1, 2, 3, 4, 5, 6]), "a cause did not occur");
}

/// The most memory that the process has had since it was last asked to forget that, in KiB.
fn peak_memory() -> Option<usize> {
    let status = std::fs::read_to_string("/proc/self/status").ok()?;
    let line = status.lines().find(|line| line.starts_with("VmHWM:"))?;
    line.split_whitespace().nth(1)?.parse().ok()
}

fn timed(run: impl FnOnce() -> u64) -> (Duration, u64) {
    let start = Instant::now();
    let answer = black_box(run());
    (start.elapsed(), answer)
}

/// The best of each over all rounds, of at least ten.
struct Best {
    copy_out: Duration,
    copy_to_work: Duration,
    by_hand: Duration,
    by_hand_in_a_loop: Duration,
    library: Duration,
}

fn measure(bytes: &[u8], in_chunks: bool, packet: usize, budget: Duration, second: &mut [u8]) -> Best {
    let longest = Duration::MAX;
    let mut best = Best { copy_out: longest, copy_to_work: longest, by_hand: longest, by_hand_in_a_loop: longest, library: longest };
    // every page of the buffers is written before the clock runs
    let mut work = vec![0xA5u8; WORK_LENGTH];
    let second = &mut second[..bytes.len()];
    second.fill(0xA5);
    let start = Instant::now();
    let mut rounds = 0;
    while rounds < 10 || start.elapsed() < budget {
        rounds += 1;
        let (time, _) = timed(|| {
            second.copy_from_slice(black_box(bytes));
            second[bytes.len() / 2] as u64
        });
        best.copy_out = best.copy_out.min(time);
        let (time, _) = timed(|| {
            let mut sum = 0;
            for part in black_box(bytes).chunks(packet) {
                black_box(&mut work)[..part.len()].copy_from_slice(part);
                sum += work[0] as u64;
            }
            sum
        });
        best.copy_to_work = best.copy_to_work.min(time);
        let (time, sum) = timed(|| by_hand::<ByMemcpy>(black_box(bytes), in_chunks, &mut work).0);
        best.by_hand = best.by_hand.min(time);
        let (time, sum_in_a_loop) = timed(|| by_hand::<ByLoop>(black_box(bytes), in_chunks, &mut work).0);
        best.by_hand_in_a_loop = best.by_hand_in_a_loop.min(time);
        let (time, proved) = timed(|| {
            let bytes = black_box(bytes);
            if in_chunks { library::chunked_play(bytes, &mut work) } else { library::play(bytes, &mut work) }
        });
        best.library = best.library.min(time);
        assert_eq!((proved, proved), (sum, sum_in_a_loop), "THE DECODERS DIFFER");
    }
    best
}

/// Bodies of 1 MiB and of 64 MiB on a stack of 64 KiB, and by how much the memory in use grew at the most.
fn look_at_memory() {
    for length in [1 << 20, BODY_LENGTH] {
        let bytes = chunked(&play_body(length, 1_400, 200), 1024);
        let mut work = vec![0xA5u8; WORK_LENGTH];
        let run = move || {
            // from here on the kernel counts the peak anew
            let _ = std::fs::write("/proc/self/clear_refs", "5");
            let before = peak_memory();
            black_box(library::chunked_play(black_box(&bytes), &mut work));
            (before, peak_memory())
        };
        let thread = std::thread::Builder::new().stack_size(64 << 10).spawn(run).unwrap();
        let grown = match thread.join().unwrap() {
            (Some(before), Some(after)) => format!("{} KiB", after - before),
            _ => "an unknown amount (no /proc)".to_string(),
        };
        println!("a body of {} MiB, read on a stack of 64 KiB: the memory in use grew by {grown}", length >> 20);
    }
}

fn main() {
    let seconds = std::env::args().nth(1).map_or(6, |word| word.parse().expect("seconds for each input"));
    let budget = Duration::from_secs(seconds);
    look_at_memory();
    let mut comparison = Comparison::new();
    compare_small_inputs(&mut comparison);
    println!("both decoders answer the same on {} small inputs; every fault and every cause is among them", comparison.inputs);
    println!();
    println!("| packets | chunks | library / by hand | library / by hand, copying in a loop | library / memcpy into the work buffer | library / memcpy to a second buffer |");
    println!("|---|---|---|---|---|---|");
    let mut second = vec![0xA5u8; 2 * BODY_LENGTH];
    for (packet, packet_name) in [(1_400, "1,400 B"), (60_000, "60,000 B")] {
        let body = play_body(BODY_LENGTH, packet, 10);
        for (chunk, chunk_name) in [(16, "16 B"), (1 << 10, "1 KiB"), (16 << 10, "16 KiB"), (64 << 10, "64 KiB"), (0, "none")] {
            let bytes = if chunk > 0 { chunked(&body, chunk) } else { body.clone() };
            comparison.compare(&bytes, chunk > 0);
            let best = measure(&bytes, chunk > 0, packet, budget, &mut second);
            let library = best.library.as_secs_f64();
            println!(
                "| {packet_name} | {chunk_name} | {:.2} | {:.2} | {:.2} | {:.2} |",
                library / best.by_hand.as_secs_f64(),
                library / best.by_hand_in_a_loop.as_secs_f64(),
                library / best.copy_to_work.as_secs_f64(),
                library / best.copy_out.as_secs_f64()
            );
        }
    }
}
