//! Lists of calls for a session over a document: mostly calls that succeed, and all that can be wrong with one.

use super::author::{Block, DOUBLES, SINGLES, lawful};
use super::damage::unlawful_address;
use super::document::Document;
use super::random::Random;
use super::writer::Target;
use crate::interface::{Call, call};

/// Writes a list of calls. What it takes the session to have done is a guess: calls may be refused.
#[derive(Debug)]
pub struct Caller<'a> {
    random: &'a mut Random,
    document: &'a Document,
    taken: usize,
    pub calls: Vec<Call>,
}

/// What comes next in a list of calls.
#[derive(Clone, Copy)]
enum Move {
    Open,
    Next,
    Reparent,
    Dress,
    Nudge,
    Undo,
    Question,
    NoCall,
    Anything,
}

/// How often each comes in a hundred times.
const MOVES: [(u64, Move); 9] = [
    (14, Move::Next),
    (20, Move::Reparent),
    (12, Move::Dress),
    (22, Move::Nudge),
    (10, Move::Undo),
    (16, Move::Question),
    (2, Move::Open),
    (2, Move::NoCall),
    (2, Move::Anything),
];

/// Numbers that are no call.
const NO_CALLS: [u32; 8] = [16, 17, 255, 256, 0x1_0000, 0x1_0001, 1 << 31, u32::MAX];

/// Calls that only ask.
const QUESTIONS: [u32; 9] = [
    call::COUNT,
    call::EDITS,
    call::RECORD,
    call::NUMBER,
    call::MATERIAL,
    call::CELL,
    call::PATH,
    call::LENGTH,
    call::BYTE,
];

impl<'a> Caller<'a> {
    pub fn new(random: &'a mut Random, document: &'a Document) -> Self {
        Self {
            random,
            document,
            taken: 0,
            calls: Vec::new(),
        }
    }

    /// A call whose fields are random where it does not name them.
    fn call(&mut self, what: u32) -> Call {
        let number = self.random.number();
        let which = self.random.number();
        let content = self.random.number();
        Call {
            number,
            which,
            content,
            address: self.random.number() as u32,
            what,
        }
    }

    fn say(&mut self, what: u32) {
        let call = self.call(what);
        self.calls.push(call);
    }

    pub fn open(&mut self) {
        self.say(call::OPEN);
    }

    pub fn next(&mut self) {
        self.say(call::NEXT);
        self.taken = (self.taken + 1).min(self.document.blocks.len());
    }

    /// Opens the document and takes so many of its blocks.
    pub fn take(&mut self, blocks: usize) {
        self.open();
        for _ in 0..blocks {
            self.next();
        }
    }

    pub fn undo(&mut self) {
        self.say(call::UNDO);
    }

    fn no_call(&mut self) {
        let what = self.random.pick(&NO_CALLS);
        if self.random.once_in(2) {
            return self.say(what);
        }
        let mut call = self.call(call::NUDGE_SINGLE);
        call.number = self.number(|block| block.cells.is_some());
        call.which = self.random.below(12);
        call.content = self.random.pick(&[
            1 << 32,
            1 << 63,
            u64::MAX,
            0x3f80_0000_0000_0000,
            0x0001_3f80_0000,
        ]);
        self.calls.push(call);
    }

    /// Any call with any arguments.
    fn anything(&mut self) {
        let what = self.random.below(17) as u32;
        let mut call = self.call(what);
        call.number = self.odd_number(self.taken as u64);
        call.which = self.odd_number(12);
        call.address = self.random.below(20) as u32;
        self.calls.push(call);
    }

    /// A number at an end of what there is or of what a number can be.
    fn odd_number(&mut self, count: u64) -> u64 {
        let near = self.random.below(4);
        let inside = self.random.below(count);
        let any = self.random.number();
        self.random.pick(&[
            0,
            inside,
            inside | 1 << 32,
            inside | 1 << 62,
            inside | 1 << 63,
            count.wrapping_sub(1),
            count + near,
            510 + near,
            0xffff + near,
            0xffff_ffff + near,
            (1 << 62) + near,
            (1 << 63) - near,
            u64::MAX - near,
            any,
        ])
    }

    /// The number of a taken block that is suitable; now and then another number.
    fn number(&mut self, suitable: impl Fn(&Block) -> bool) -> u64 {
        let taken = self.document.blocks[..self.taken].iter().enumerate();
        let found: Vec<usize> = taken
            .filter(|(_, block)| suitable(block))
            .map(|(number, _)| number)
            .collect();
        match self.random.below(20) {
            0 => self.odd_number(self.taken as u64),
            1 => self.random.below(self.taken as u64),
            _ if found.is_empty() => self.random.below(self.taken as u64 + 1),
            _ => self.random.pick(&found) as u64,
        }
    }

    fn block(&self, number: u64) -> Option<&'a Block> {
        self.document.blocks.get(usize::try_from(number).ok()?)
    }

    /// An address for the block of this number: mostly a lawful one.
    fn address(&mut self, number: u64, target: Target) -> u32 {
        let blocks = &self.document.blocks;
        let Some(number) = usize::try_from(number)
            .ok()
            .filter(|&number| number < blocks.len())
        else {
            return self.random.below(9) as u32;
        };
        if self.random.once_in(5) {
            return unlawful_address(self.random, blocks, number, target);
        }
        let before = &blocks[..number];
        let ids = before.iter().map(|block| block.id).chain([0]);
        let lawful: Vec<u32> = ids.filter(|&id| lawful(id, target, before)).collect();
        self.random.pick(&lawful)
    }

    pub fn reparent(&mut self) {
        let number = self.number(|block| block.parent.is_some());
        let address = self.address(number, Target::Parent);
        let call = self.call(call::REPARENT);
        self.calls.push(Call {
            number,
            address,
            ..call
        });
    }

    pub fn dress(&mut self) {
        let number = self.number(|block| block.materials.is_some_and(|(_, count)| count > 0));
        let which = self.position(number);
        let address = self.address(number, Target::Material);
        let call = self.call(call::DRESS);
        self.calls.push(Call {
            number,
            which,
            address,
            ..call
        });
    }

    /// A position of a material: mostly one that is there.
    fn position(&mut self, number: u64) -> u64 {
        let count = self
            .block(number)
            .and_then(|block| block.materials)
            .map_or(0, |(_, count)| count);
        if count == 0 || self.random.once_in(10) {
            self.odd_number(count)
        } else {
            self.random.below(count)
        }
    }

    fn cell(&mut self) -> u64 {
        if self.random.once_in(12) {
            self.odd_number(12)
        } else {
            self.random.below(12)
        }
    }

    pub fn nudge(&mut self) {
        let number = self.number(|block| block.cells.is_some());
        let which = self.cell();
        let wide = self
            .block(number)
            .and_then(|block| block.cells)
            .is_some_and(|(_, width)| width == 8);
        let wide = wide != self.random.once_in(10);
        let random_bits = self.random.once_in(2);
        let (what, content) = match (wide, random_bits) {
            (true, true) => (call::NUDGE_DOUBLE, self.random.number()),
            (true, false) => (call::NUDGE_DOUBLE, self.random.pick(&DOUBLES)),
            (false, true) => (call::NUDGE_SINGLE, self.random.number() >> 32),
            (false, false) => (call::NUDGE_SINGLE, u64::from(self.random.pick(&SINGLES))),
        };
        let call = self.call(what);
        self.calls.push(Call {
            number,
            which,
            content,
            ..call
        });
    }

    fn question(&mut self) {
        let what = self.random.pick(&QUESTIONS);
        let mut call = self.call(what);
        match what {
            call::NUMBER => call.address = self.random.below(self.taken as u64 + 3) as u32,
            call::BYTE => call.number = self.place(),
            call::MATERIAL => {
                call.number = self.number(|block| block.materials.is_some());
                call.which = self.position(call.number);
            }
            _ => {
                call.number = self.number(|block| block.cells.is_some());
                call.which = self.cell();
            }
        }
        self.calls.push(call);
    }

    /// A place in or at the edge of a field that edits are laid over; now and then another one.
    fn place(&mut self) -> u64 {
        let length = self.document.bytes.len() as u64;
        let number = self.number(|block| block.cells.is_some());
        let field = self
            .block(number)
            .and_then(|block| self.random.pick(&fields(block)));
        match field {
            Some(place) if !self.random.once_in(6) => {
                (place + self.random.below(14)).saturating_sub(3)
            }
            _ if self.random.once_in(2) => self.random.below(length),
            _ => self.odd_number(length),
        }
    }

    fn make(&mut self, next: Move) {
        match next {
            Move::Open => self.open(),
            Move::Next => self.next(),
            Move::Reparent => self.reparent(),
            Move::Dress => self.dress(),
            Move::Nudge => self.nudge(),
            Move::Undo => self.undo(),
            Move::Question => self.question(),
            Move::NoCall => self.no_call(),
            Move::Anything => self.anything(),
        }
    }

    /// So many moves.
    pub fn moves(&mut self, count: usize) {
        for _ in 0..count {
            let chosen = self.random.below(100);
            let mut reached = 0;
            let found = MOVES.iter().find(|(weight, _)| {
                reached += weight;
                chosen < reached
            });
            self.make(found.map_or(Move::Question, |&(_, found)| found));
        }
    }

    /// So many edits that nothing can be said against but that there are too many.
    pub fn sure_edits(&mut self, count: usize) {
        let taken = self.document.blocks[..self.taken].iter();
        let scene: Vec<(u64, u64)> = (0..)
            .zip(taken)
            .filter_map(|(number, block)| Some((number, block.cells?.1)))
            .collect();
        if scene.is_empty() {
            return;
        }
        for _ in 0..count {
            let (number, width) = self.random.pick(&scene);
            let which = self.random.below(12);
            let (what, bits) = match width {
                4 => (call::NUDGE_SINGLE, self.random.below(0x7f80_0001)),
                _ => (call::NUDGE_DOUBLE, self.random.below(0x7ff0_0000_0000_0001)),
            };
            let what = if self.random.once_in(2) {
                call::REPARENT
            } else {
                what
            };
            let call = self.call(what);
            self.calls.push(Call {
                number,
                which,
                content: bits,
                address: 0,
                ..call
            });
        }
    }

    /// Asks about everything that edits change, and about what is not there.
    pub fn sweep(&mut self) {
        for what in [call::COUNT, call::EDITS, call::LENGTH] {
            self.say(what);
        }
        let count = self.document.blocks.len() as u64;
        for number in 0..count.min(20) + 2 {
            self.ask_all(number);
        }
        for _ in 0..20 {
            let place = self.place();
            self.ask(call::BYTE, place, 0);
        }
        let length = self.document.bytes.len() as u64;
        for place in [0, length - 1, length, length + 1, u64::MAX] {
            self.ask(call::BYTE, place, 0);
        }
        for number in [count.wrapping_sub(1), 511, 512, 1 << 32, 1 << 63, u64::MAX] {
            self.ask_all(number);
        }
    }

    fn ask(&mut self, what: u32, number: u64, which: u64) {
        let call = self.call(what);
        self.calls.push(Call {
            number,
            which,
            ..call
        });
    }

    /// Each question about the block of a number, and about the ID of that number.
    fn ask_all(&mut self, number: u64) {
        let call = self.call(call::NUMBER);
        self.calls.push(Call {
            address: number as u32,
            ..call
        });
        self.ask(call::RECORD, number, 0);
        self.ask(call::PATH, number, 0);
        let block = self.block(number).copied().unwrap_or_default();
        let cells = if block.cells.is_some() { 4 } else { 1 };
        for cell in [0, self.random.below(12), 11, 12].into_iter().take(cells) {
            self.ask(call::CELL, number, cell);
        }
        let materials = block.materials.map_or(0, |(_, count)| count.min(3));
        for _ in 0..=materials {
            let position = self.position(number);
            self.ask(call::MATERIAL, number, position);
        }
    }
}

/// The places of the fields that edits are laid over: parent, first and last cell, first material.
fn fields(block: &Block) -> [Option<u64>; 4] {
    [
        block.parent.map(|(place, _)| place),
        block.cells.map(|(place, _)| place),
        block.cells.map(|(place, width)| place + 11 * width),
        block.materials.map(|(place, _)| place),
    ]
}

/// A list of calls for a document: edits begin before all blocks are taken, undo goes to the bottom and beyond, and
/// in the end everything is asked.
pub fn history(random: &mut Random, document: &Document) -> Vec<Call> {
    let blocks = document.blocks.len();
    let mut caller = Caller::new(random, document);
    if caller.random.once_in(6) {
        caller.moves(6);
    }
    let at_first = caller.random.length(blocks / 2, blocks + 1);
    caller.take(at_first);
    let mixed = caller.random.length(0, 60);
    caller.moves(mixed);
    match caller.random.below(12) {
        0 => caller.undo_all(),
        1 => caller.fill(),
        2..=6 => caller.take_rest(),
        _ => (),
    }
    caller.sweep();
    caller.calls
}

impl Caller<'_> {
    /// Undo to the bottom and beyond, now and then with an edit between.
    fn undo_all(&mut self) {
        for _ in 0..40 {
            self.undo();
            if self.random.once_in(12) {
                self.nudge();
            }
        }
    }

    /// More edits than may stand; some of them taken back; more edits again.
    fn fill(&mut self) {
        self.sure_edits(258);
        self.moves(4);
        for _ in 0..self.random.index(4) {
            self.undo();
        }
        self.sure_edits(3);
        self.sweep();
        if self.random.once_in(2) {
            for _ in 0..260 {
                self.undo();
            }
        }
    }

    fn take_rest(&mut self) {
        while self.taken < self.document.blocks.len() {
            self.next();
        }
        self.next();
        self.moves(10);
    }
}
