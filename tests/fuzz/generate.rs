//! Scripts and lists of calls, made from a seed: the same seed makes the same ones on every
//! machine.

// The fuzz and the benchmark use a part each.
#![allow(dead_code)]

/// Numbers from a seed, without a crate and alike on every machine.
pub struct Random {
    state: u64,
}

impl Random {
    pub fn new(seed: u64, case: u64) -> Self {
        let mut random = Random { state: seed };
        random.state = random.next() ^ case;
        random
    }

    pub fn next(&mut self) -> u64 {
        self.state = self.state.wrapping_add(0x9e37_79b9_7f4a_7c15);
        let mut mixed = self.state;
        mixed = (mixed ^ (mixed >> 30)).wrapping_mul(0xbf58_476d_1ce4_e5b9);
        mixed = (mixed ^ (mixed >> 27)).wrapping_mul(0x94d0_49bb_1331_11eb);
        mixed ^ (mixed >> 31)
    }

    pub fn below(&mut self, limit: u64) -> u64 {
        self.next() % limit
    }

    pub fn index(&mut self, limit: usize) -> usize {
        self.below(limit as u64) as usize
    }

    pub fn one_in(&mut self, count: u64) -> bool {
        self.below(count) == 0
    }

    pub fn pick<T: Copy>(&mut self, items: &[T]) -> T {
        items[self.index(items.len())]
    }

    /// Any number of bits is as likely as any other.
    pub fn word(&mut self) -> u64 {
        match self.below(65) {
            0 => 0,
            bits => self.next() >> (64 - bits),
        }
    }

    pub fn bytes(&mut self, length: usize) -> Vec<u8> {
        (0..length).map(|_| self.next() as u8).collect()
    }

    pub fn words(&mut self, length: usize) -> Vec<u64> {
        (0..length).map(|_| self.next()).collect()
    }
}

/// A letter's byte and up to three fields.
pub type Call = [u64; 4];

pub const LETTERS: &[u8; 7] = b"bslcamd";
const EDGES: [u64; 12] = [3, 4, 15, 16, 17, 63, 64, 65, 511, 512, 1 << 32, u64::MAX];

/// Makes calls that mostly fit the jobs that are open.
pub struct Caller {
    threads: u64,
    words: u64,
    /// One call in so many has a number out of the ordinary.
    wild: u64,
    open: [bool; 16],
}

impl Caller {
    pub fn new(threads: u64, words: u64, wild: u64) -> Self {
        Caller { threads, words, wild, open: [false; 16] }
    }

    pub fn any(random: &mut Random) -> Self {
        let threads = random.pick(&[1, 2, 3, 8, 16]);
        let words = random.pick(&[4, 20, 70, 512]);
        let wild = random.pick(&[5, 30, 200]);
        Caller::new(threads, words, wild)
    }

    pub fn call(&mut self, random: &mut Random) -> Call {
        let thread = random.below(self.threads);
        let letter = self.letter(thread, random);
        let mut call = match letter {
            b'd' => [0, random.below(4), random.below(self.words.div_ceil(8)), random.next()],
            b'm' => [0, thread, random.below(4), random.next()],
            b's' | b'l' => [0, thread, random.below(self.words), random.word()],
            _ => [0, thread, random.next(), random.next()],
        };
        call[0] = letter.into();
        if random.one_in(self.wild) {
            let field = 1 + random.index(3);
            call[field] = if random.one_in(4) { random.word() } else { random.pick(&EDGES) };
        }
        call
    }

    fn letter(&mut self, thread: u64, random: &mut Random) -> u8 {
        if random.one_in(40) {
            return random.pick(LETTERS);
        }
        let open = &mut self.open[thread as usize];
        if !*open {
            *open = true;
            return b'b';
        }
        match random.below(100) {
            0..45 => b'l',
            45..76 => b's',
            76..86 => {
                *open = false;
                b'c'
            }
            86..90 => {
                *open = false;
                b'a'
            }
            90..95 => b'm',
            _ => b'd',
        }
    }
}

fn put_line(script: &mut Vec<u8>, call: &Call) {
    let fields = match call[0] as u8 {
        b's' => 3,
        b'l' | b'm' | b'd' => 2,
        _ => 1,
    };
    script.push(call[0] as u8);
    for field in &call[1..=fields] {
        script.extend(format!(" {field}").bytes());
    }
    script.push(b'\n');
}

/// The benchmark's script: twelve threads over the whole table, all seven calls, and some that are
/// refused.
pub fn mixed(bytes: usize) -> Vec<u8> {
    let mut random = Random::new(1, 0);
    let mut caller = Caller::new(12, 512, 50);
    let mut script = Vec::new();
    loop {
        let length = script.len();
        put_line(&mut script, &caller.call(&mut random));
        if script.len() > bytes {
            script.truncate(length);
            return script;
        }
    }
}

fn sound(random: &mut Random, lines: usize) -> Vec<u8> {
    let mut caller = Caller::any(random);
    let mut script = Vec::new();
    for _ in 0..lines {
        put_line(&mut script, &caller.call(random));
    }
    script
}

/// One job that stores to more words than its log has room for.
fn long_job(random: &mut Random) -> Vec<u8> {
    let mut script = b"b 5\n".to_vec();
    let first = random.below(440);
    for address in first..first + 62 + random.below(8) {
        put_line(&mut script, &[b's'.into(), 5, address, random.word()]);
        if random.one_in(8) {
            put_line(&mut script, &[b's'.into(), 5, random.below(512), random.word()]);
        }
    }
    script.extend(random.pick(&[&b"c 5\n"[..], b"a 5\n", b""]));
    script
}

const ODD: [&[u8]; 20] = [
    b" ",
    b"  ",
    b"\n",
    b"\n\n",
    b"0",
    b"00",
    b"007",
    b"+1",
    b"-1",
    b"1a",
    b"\r\n",
    b"\t",
    b"\xff",
    b"x 1\n",
    b"18446744073709551615",
    b"18446744073709551616",
    b"99999999999999999999",
    b"100000000000000000000",
    b"00000000000000000001",
    b"99999999999999999999999999999999999999999999",
];

fn damage(random: &mut Random, script: &mut Vec<u8>) {
    let place = random.index(script.len() + 1);
    let end = (place + random.index(30)).min(script.len());
    match random.below(8) {
        0 if place < script.len() => script[place] ^= 1 << random.below(8),
        1 if place < script.len() => script[place] = random.pick(b"bslcamdx 0123456789\n\n"),
        2 => drop(script.drain(place..end)),
        3 => {
            let piece = script[place..end].to_vec();
            let other = random.index(script.len() + 1);
            script.splice(other..other, piece);
        }
        4 if script.last() == Some(&b'\n') => drop(script.pop()),
        5 if random.one_in(20) => {
            let length = random.index(40_000);
            script.splice(place..place, vec![random.pick(b" 0 9\n"); length]);
        }
        _ => {
            // Before or behind a field most of the time, where it tells most.
            let at = script[place..]
                .iter()
                .position(|&byte| byte <= b' ')
                .map_or(place, |far| place + far);
            let at = if random.one_in(2) { (at + 1).min(script.len()) } else { at };
            script.splice(at..at, random.pick(&ODD).iter().copied());
        }
    }
}

pub fn script(random: &mut Random) -> Vec<u8> {
    let lines = match random.below(20) {
        0 => random.index(4_000),
        1..6 => random.index(400),
        _ => random.index(40),
    };
    let mut script = match random.below(12) {
        0 => (0..lines * 4).map(|_| random.pick(b"bslcamd    00123456789\n\n\n")).collect(),
        1 => random.bytes(lines),
        2 => long_job(random),
        _ => sound(random, lines),
    };
    if random.one_in(2) {
        for _ in 0..1 + random.index(12) {
            damage(random, &mut script);
        }
    }
    script
}

/// Lengths at which a report is full sooner or later, or never.
pub fn report_length(random: &mut Random, script: &[u8]) -> usize {
    match random.below(8) {
        0 => random.index(130),
        1 => random.pick(&[0, 1, 63, 64, 65]),
        2 | 3 => random.index(script.len() + 200),
        4 => 65_536,
        _ => script.len() * 8 + 64,
    }
}

/// A letter in the lowest byte alone is not enough.
const NO_LETTERS: [u64; 6] =
    [0, b'x' as u64, b'B' as u64, 0x100 + b'b' as u64, (1 << 32) + b'l' as u64, u64::MAX];

pub fn calls(random: &mut Random) -> Vec<u64> {
    let mut caller = Caller::any(random);
    let count = if random.one_in(20) { random.index(4_000) } else { random.index(120) };
    let mut calls: Vec<u64> = (0..count).flat_map(|_| caller.call(random)).collect();
    if random.one_in(6) {
        let store = |address| [b's'.into(), 5, address, !address];
        let long_job = [[b'b'.into(), 5, 0, 0]].into_iter().chain((0..70).map(store));
        calls.splice(0..0, long_job.flatten());
    }
    if random.one_in(4) && !calls.is_empty() {
        let place = random.index(calls.len().div_ceil(4)) * 4;
        calls[place] = random.pick(&NO_LETTERS);
    }
    if random.one_in(3) {
        calls.truncate(calls.len().saturating_sub(random.index(8)));
    }
    calls
}

/// Whole blocks or not, none at all, or more than a memory takes.
pub fn table_length(random: &mut Random) -> usize {
    match random.below(6) {
        0 => random.index(140),
        1 => random.index(4_500),
        2 => 64 * random.index(70),
        _ => 4_096,
    }
}
