//! The shore-station store once more, as a plain Rust program: written from docs/RULES.md,
//! docs/REFUSALS.md and docs/SCRIPT.md, without a line of the proved crates. The fuzz compares the
//! two, and the benchmark measures them.

use std::io::{self, Write};

pub const THREADS: usize = 16;
pub const BOARDS: usize = 4;
pub const BLOCKS: usize = 64;
pub const BLOCK_WORDS: usize = 8;
const TOKENS: u8 = 64;
const UNDO_ROOM: usize = 64;
const ROW_ROOM: usize = 64;

// -------------------------------------------------------------------------------------------------
// Refusals

#[derive(Clone, Copy, Debug, PartialEq, Eq)]
pub enum Layer {
    Text,
    Store,
    Memory,
    Book,
    Marks,
}

impl Layer {
    pub fn letter(self) -> u8 {
        match self {
            Layer::Text => b'T',
            Layer::Store => b'S',
            Layer::Memory => b'M',
            Layer::Book => b'B',
            Layer::Marks => b'K',
        }
    }
}

#[derive(Clone, Copy, Debug, PartialEq, Eq)]
pub struct Fault {
    pub layer: Layer,
    pub number: u64,
    pub carried: u64,
}

fn refuse<T>(layer: Layer, number: u64, carried: u64) -> Result<T, Fault> {
    Err(Fault { layer, number, carried })
}

fn check_board(board: u64) -> Result<usize, Fault> {
    if board >= BOARDS as u64 {
        return refuse(Layer::Book, 8, board);
    }
    Ok(board as usize)
}

fn check_block(block: u64) -> Result<usize, Fault> {
    if block >= BLOCKS as u64 {
        return refuse(Layer::Book, 9, block);
    }
    Ok(block as usize)
}

// -------------------------------------------------------------------------------------------------
// Memories

pub trait Memory {
    /// The number of words.
    fn length(&self) -> usize;
    fn get(&self, index: usize) -> u64;
    fn set(&mut self, index: usize, word: u64);

    fn index(&self, address: u64) -> Result<usize, Fault> {
        if address >= self.length() as u64 {
            return refuse(Layer::Memory, 4, address);
        }
        Ok(address as usize)
    }
}

/// A table of words that the store owns.
impl Memory for Vec<u64> {
    fn length(&self) -> usize {
        self.len()
    }

    fn get(&self, index: usize) -> u64 {
        self[index]
    }

    fn set(&mut self, index: usize, word: u64) {
        self[index] = word;
    }
}

/// A table of big-endian words in somebody else's bytes.
pub struct Image<'a> {
    words: &'a mut [[u8; 8]],
}

impl<'a> Image<'a> {
    pub fn new(bytes: &'a mut [u8]) -> Self {
        let (words, _) = bytes.as_chunks_mut();
        let blocks = (words.len() / BLOCK_WORDS).min(BLOCKS);
        Image { words: &mut words[..blocks * BLOCK_WORDS] }
    }
}

impl Memory for Image<'_> {
    fn length(&self) -> usize {
        self.words.len()
    }

    fn get(&self, index: usize) -> u64 {
        u64::from_be_bytes(self.words[index])
    }

    fn set(&mut self, index: usize, word: u64) {
        self.words[index] = word.to_be_bytes();
    }
}

// -------------------------------------------------------------------------------------------------
// Books

/// Threads and blocks are in range here: the store has checked them.
pub trait Book {
    fn take_for_load(&mut self, thread: usize, block: usize) -> Result<(), Fault>;
    fn take_for_store(&mut self, thread: usize, block: usize) -> Result<(), Fault>;
    fn release(&mut self, thread: usize) -> u64;
    fn seat(&mut self, thread: usize, board: u64) -> Result<(), Fault>;
    fn drop_copy(&mut self, board: u64, block: u64) -> Result<(), Fault>;
}

#[derive(Clone, Copy, PartialEq, Eq)]
enum Holding {
    None,
    One,
    All,
}

/// The full book: each holding as such.
pub struct FullBook {
    holdings: [[Holding; BLOCKS]; THREADS],
}

impl FullBook {
    pub fn new() -> Self {
        FullBook { holdings: [[Holding::None; BLOCKS]; THREADS] }
    }

    /// The lowest other thread whose holding of the block is such.
    fn other(&self, thread: usize, block: usize, such: impl Fn(Holding) -> bool) -> Option<usize> {
        (0..THREADS).find(|&other| other != thread && such(self.holdings[other][block]))
    }
}

impl Book for FullBook {
    fn take_for_load(&mut self, thread: usize, block: usize) -> Result<(), Fault> {
        if self.holdings[thread][block] != Holding::None {
            return Ok(());
        }
        if let Some(other) = self.other(thread, block, |holding| holding == Holding::All) {
            return refuse(Layer::Book, 6, other as u64);
        }
        self.holdings[thread][block] = Holding::One;
        Ok(())
    }

    fn take_for_store(&mut self, thread: usize, block: usize) -> Result<(), Fault> {
        if self.holdings[thread][block] == Holding::All {
            return Ok(());
        }
        if let Some(other) = self.other(thread, block, |holding| holding != Holding::None) {
            return refuse(Layer::Book, 7, other as u64);
        }
        self.holdings[thread][block] = Holding::All;
        Ok(())
    }

    fn release(&mut self, thread: usize) -> u64 {
        let holdings = &self.holdings[thread];
        let held = holdings.iter().filter(|&&holding| holding != Holding::None).count();
        self.holdings[thread] = [Holding::None; BLOCKS];
        held as u64
    }

    fn seat(&mut self, _thread: usize, board: u64) -> Result<(), Fault> {
        check_board(board)?;
        Ok(())
    }

    fn drop_copy(&mut self, board: u64, block: u64) -> Result<(), Fault> {
        check_board(board)?;
        check_block(block)?;
        Ok(())
    }
}

#[derive(Clone, Copy, Debug, PartialEq, Eq)]
enum Mark {
    /// So many tokens, without a name.
    Unnamed(u8),
    /// One token, by this thread.
    One(u8),
    /// All tokens, by this thread.
    All(u8),
}

impl Mark {
    fn shown(self) -> u8 {
        match self {
            Mark::Unnamed(count) => count,
            Mark::One(_) => 1,
            Mark::All(_) => TOKENS,
        }
    }

    fn split(self) -> Mark {
        match self {
            Mark::All(_) => self,
            _ => Mark::Unnamed(0),
        }
    }

    fn fuse(self, other: Mark) -> Result<Mark, Fault> {
        let sum = self.shown() + other.shown();
        match (self, other) {
            (Mark::All(_), _) if self == other => Ok(self),
            (Mark::All(_), _) | (_, Mark::All(_)) => refuse(Layer::Marks, 10, sum.into()),
            (Mark::Unnamed(0), mark) | (mark, Mark::Unnamed(0)) => Ok(mark),
            _ if sum < TOKENS => Ok(Mark::Unnamed(sum)),
            _ => refuse(Layer::Marks, 10, sum.into()),
        }
    }
}

#[derive(Clone, Copy)]
struct Block {
    home: Mark,
    copies: [Option<Mark>; BOARDS],
}

impl Block {
    fn give_up(&mut self, board: usize) {
        if let Some(copy) = self.copies[board].take() {
            self.home = self.home.fuse(copy).expect("the marks of one block always fuse");
        }
    }

    fn gather(&mut self) {
        for board in 0..BOARDS {
            self.give_up(board);
        }
    }
}

struct TokenRecord {
    block: u8,
    count: u8,
}

struct Account {
    seat: usize,
    log: Vec<TokenRecord>,
}

impl Account {
    fn credit(&self, block: usize) -> u8 {
        let records = self.log.iter().filter(|record| usize::from(record.block) == block);
        records.map(|record| record.count).sum()
    }
}

/// The board book: marks at home and on the boards, a seat and a token log for each thread.
pub struct BoardBook {
    blocks: [Block; BLOCKS],
    accounts: [Account; THREADS],
}

impl BoardBook {
    pub fn new() -> Self {
        let fresh = Block { home: Mark::Unnamed(0), copies: [None; BOARDS] };
        let accounts = std::array::from_fn(|_| Account { seat: 0, log: Vec::new() });
        BoardBook { blocks: [fresh; BLOCKS], accounts }
    }

    fn record(&mut self, thread: usize, block: usize, count: u8) {
        self.accounts[thread].log.push(TokenRecord { block: block as u8, count });
    }
}

impl Book for BoardBook {
    fn take_for_load(&mut self, thread: usize, block: usize) -> Result<(), Fault> {
        let account = &self.accounts[thread];
        if account.credit(block) > 0 {
            return Ok(());
        }
        let Block { home, copies } = &mut self.blocks[block];
        let copy = copies[account.seat].get_or_insert(home.split());
        *copy = match *copy {
            Mark::All(holder) => return refuse(Layer::Book, 6, holder.into()),
            Mark::Unnamed(0) => Mark::One(thread as u8),
            mark => Mark::Unnamed(mark.shown() + 1),
        };
        self.record(thread, block, 1);
        Ok(())
    }

    fn take_for_store(&mut self, thread: usize, block: usize) -> Result<(), Fault> {
        let credit = self.accounts[thread].credit(block);
        if credit == TOKENS {
            return Ok(());
        }
        let marks = &mut self.blocks[block];
        marks.gather();
        if marks.home.shown() != credit {
            let holds = |&other: &usize| other != thread && self.accounts[other].credit(block) > 0;
            let holder = (0..THREADS).find(holds).expect("some thread holds each token shown");
            return refuse(Layer::Book, 7, holder as u64);
        }
        marks.home = Mark::All(thread as u8);
        self.record(thread, block, TOKENS - credit);
        Ok(())
    }

    fn release(&mut self, thread: usize) -> u64 {
        let log = &mut self.accounts[thread].log;
        let records = log.len() as u64;
        for record in log.drain(..) {
            let marks = &mut self.blocks[usize::from(record.block)];
            marks.gather();
            marks.home = Mark::Unnamed(marks.home.shown() - record.count);
        }
        records
    }

    fn seat(&mut self, thread: usize, board: u64) -> Result<(), Fault> {
        self.accounts[thread].seat = check_board(board)?;
        Ok(())
    }

    fn drop_copy(&mut self, board: u64, block: u64) -> Result<(), Fault> {
        let board = check_board(board)?;
        let block = check_block(block)?;
        self.blocks[block].give_up(board);
        Ok(())
    }
}

// -------------------------------------------------------------------------------------------------
// The store

#[derive(Clone, Copy, Debug, PartialEq, Eq)]
pub enum Call {
    Begin { thread: u64 },
    Load { thread: u64, address: u64 },
    Store { thread: u64, address: u64, word: u64 },
    Commit { thread: u64 },
    Abort { thread: u64 },
    Seat { thread: u64, board: u64 },
    Drop { board: u64, block: u64 },
}

#[derive(Clone, Copy, Debug, PartialEq, Eq)]
pub enum Values {
    None,
    One(u64),
    Two(u64, u64),
}

pub type Answer = Result<Values, Fault>;

struct UndoRecord {
    index: usize,
    word: u64,
}

struct Job {
    open: bool,
    undo: Vec<UndoRecord>,
}

pub struct Store<M, B> {
    memory: M,
    book: B,
    jobs: [Job; THREADS],
}

impl<M: Memory, B: Book> Store<M, B> {
    pub fn new(memory: M, mut book: B) -> Self {
        for thread in 0..THREADS {
            book.release(thread);
        }
        let jobs = std::array::from_fn(|_| Job { open: false, undo: Vec::new() });
        Store { memory, book, jobs }
    }

    pub fn call(&mut self, call: Call) -> Answer {
        match call {
            Call::Begin { thread } => self.begin(thread),
            Call::Load { thread, address } => self.load(thread, address),
            Call::Store { thread, address, word } => self.store(thread, address, word),
            Call::Commit { thread } => self.commit(thread),
            Call::Abort { thread } => self.abort(thread),
            Call::Seat { thread, board } => self.seat(thread, board),
            Call::Drop { board, block } => self.drop_copy(board, block),
        }
    }

    fn begin(&mut self, thread: u64) -> Answer {
        let job = &mut self.jobs[check_thread(thread)?];
        if job.open {
            return refuse(Layer::Store, 2, thread);
        }
        job.open = true;
        Ok(Values::None)
    }

    fn load(&mut self, thread: u64, address: u64) -> Answer {
        let open = self.check_open(thread)?;
        let index = self.memory.index(address)?;
        self.book.take_for_load(open, index / BLOCK_WORDS)?;
        Ok(Values::One(self.memory.get(index)))
    }

    fn store(&mut self, thread: u64, address: u64, word: u64) -> Answer {
        let open = self.check_open(thread)?;
        let index = self.memory.index(address)?;
        let undo = &mut self.jobs[open].undo;
        let noted = undo.iter().any(|record| record.index == index);
        if !noted && undo.len() == UNDO_ROOM {
            return refuse(Layer::Store, 5, address);
        }
        self.book.take_for_store(open, index / BLOCK_WORDS)?;
        if !noted {
            undo.push(UndoRecord { index, word: self.memory.get(index) });
        }
        self.memory.set(index, word);
        Ok(Values::None)
    }

    fn commit(&mut self, thread: u64) -> Answer {
        let open = self.check_open(thread)?;
        Ok(self.end(open))
    }

    fn abort(&mut self, thread: u64) -> Answer {
        let open = self.check_open(thread)?;
        for record in self.jobs[open].undo.iter().rev() {
            self.memory.set(record.index, record.word);
        }
        Ok(self.end(open))
    }

    fn seat(&mut self, thread: u64, board: u64) -> Answer {
        self.book.seat(check_thread(thread)?, board)?;
        Ok(Values::None)
    }

    fn drop_copy(&mut self, board: u64, block: u64) -> Answer {
        self.book.drop_copy(board, block)?;
        Ok(Values::None)
    }

    fn end(&mut self, thread: usize) -> Values {
        let job = &mut self.jobs[thread];
        let records = job.undo.len() as u64;
        job.undo.clear();
        job.open = false;
        Values::Two(records, self.book.release(thread))
    }

    fn check_open(&self, thread: u64) -> Result<usize, Fault> {
        let index = check_thread(thread)?;
        if !self.jobs[index].open {
            return refuse(Layer::Store, 3, thread);
        }
        Ok(index)
    }
}

fn check_thread(thread: u64) -> Result<usize, Fault> {
    if thread >= THREADS as u64 {
        return refuse(Layer::Store, 1, thread);
    }
    Ok(thread as usize)
}

// -------------------------------------------------------------------------------------------------
// The script

fn number(field: &[u8]) -> Option<u64> {
    if field.is_empty() || (field[0] == b'0' && field.len() > 1) {
        return None;
    }
    field.iter().try_fold(0u64, |value, &byte| {
        let digit = byte.wrapping_sub(b'0');
        if digit > 9 {
            return None;
        }
        value.checked_mul(10)?.checked_add(digit.into())
    })
}

fn parse(line: &[u8]) -> Result<Call, Fault> {
    let mut fields = line.split(|&byte| byte == b' ');
    let wanted = match fields.next() {
        Some(b"b" | b"c" | b"a") => 2,
        Some(b"l" | b"m" | b"d") => 3,
        Some(b"s") => 4,
        _ => return refuse(Layer::Text, 11, 1),
    };
    let count = 1 + fields.clone().count();
    if count != wanted {
        return refuse(Layer::Text, 12, count as u64);
    }
    let mut position = 1;
    let mut next = || {
        position += 1;
        fields.next().and_then(number).map_or_else(|| refuse(Layer::Text, 13, position), Ok)
    };
    let first = next()?;
    Ok(match line[0] {
        b'b' => Call::Begin { thread: first },
        b'c' => Call::Commit { thread: first },
        b'a' => Call::Abort { thread: first },
        b'l' => Call::Load { thread: first, address: next()? },
        b'm' => Call::Seat { thread: first, board: next()? },
        b'd' => Call::Drop { board: first, block: next()? },
        _ => Call::Store { thread: first, address: next()?, word: next()? },
    })
}

fn put_number(report: &mut impl Write, mut number: u64) -> io::Result<()> {
    let mut digits = [0; 20];
    let mut first = digits.len();
    loop {
        first -= 1;
        digits[first] = b'0' + (number % 10) as u8;
        number /= 10;
        if number == 0 {
            return report.write_all(&digits[first..]);
        }
    }
}

fn put_field(report: &mut impl Write, number: u64) -> io::Result<()> {
    report.write_all(b" ")?;
    put_number(report, number)
}

/// Digits by hand, since `write!` takes about as long as the call itself.
fn put_row(report: &mut impl Write, line: u64, answer: Answer) -> io::Result<()> {
    put_number(report, line)?;
    match answer {
        Ok(Values::None) => report.write_all(b" ok")?,
        Ok(Values::One(word)) => {
            report.write_all(b" ok")?;
            put_field(report, word)?;
        }
        Ok(Values::Two(records, figure)) => {
            report.write_all(b" ok")?;
            put_field(report, records)?;
            put_field(report, figure)?;
        }
        Err(Fault { layer, number, carried }) => {
            report.write_all(b" no ")?;
            report.write_all(&[layer.letter()])?;
            put_field(report, number)?;
            put_field(report, carried)?;
        }
    }
    report.write_all(b"\n")
}

/// How a script's run ended.
#[derive(Clone, Copy, Debug, PartialEq, Eq)]
pub struct Run {
    /// How many bytes of the report are rows.
    pub fill: usize,
    /// The line before which the report was full.
    pub stopped: Option<u64>,
}

pub fn run<M: Memory, B: Book>(store: &mut Store<M, B>, script: &[u8], report: &mut [u8]) -> Run {
    let length = report.len();
    let mut rest = report;
    let mut stopped = None;
    for (line, number) in script.split(|&byte| byte == b'\n').zip(1..) {
        if line.is_empty() {
            continue;
        }
        if rest.len() < ROW_ROOM {
            stopped = Some(number);
            break;
        }
        let answer = parse(line).and_then(|call| store.call(call));
        put_row(&mut rest, number, answer).expect("a row has at most 64 bytes");
    }
    Run { fill: length - rest.len(), stopped }
}

/// A script on a fresh store with the board book over 512 zero words.
pub fn run_fresh(script: &[u8], report: &mut [u8]) -> Run {
    let mut store = Store::new(vec![0; BLOCKS * BLOCK_WORDS], BoardBook::new());
    run(&mut store, script, report)
}

// -------------------------------------------------------------------------------------------------
// Calls as numbers

fn decode(&[letter, first, second, third]: &[u64; 4]) -> Option<Call> {
    Some(match u8::try_from(letter).ok()? {
        b'b' => Call::Begin { thread: first },
        b'l' => Call::Load { thread: first, address: second },
        b's' => Call::Store { thread: first, address: second, word: third },
        b'c' => Call::Commit { thread: first },
        b'a' => Call::Abort { thread: first },
        b'm' => Call::Seat { thread: first, board: second },
        b'd' => Call::Drop { board: first, block: second },
        _ => return None,
    })
}

fn encode(answer: Answer) -> [u64; 4] {
    match answer {
        Ok(Values::None) => [0, 0, 0, 0],
        Ok(Values::One(word)) => [0, 1, word, 0],
        Ok(Values::Two(records, figure)) => [0, 2, records, figure],
        Err(Fault { layer, number, carried }) => [layer.letter().into(), number, carried, 0],
    }
}

/// Makes the calls, four numbers each, on a fresh store over the table's bytes, as far as the
/// answers have room and the letters are the script's; answers how many were made.
pub fn replay<B: Book>(book: B, table: &mut [u8], calls: &[u64], answers: &mut [u64]) -> usize {
    let mut store = Store::new(Image::new(table), book);
    let (calls, _) = calls.as_chunks();
    let (answers, _) = answers.as_chunks_mut();
    let mut made = 0;
    for (call, answer) in calls.iter().map_while(decode).zip(answers) {
        *answer = encode(store.call(call));
        made += 1;
    }
    made
}
