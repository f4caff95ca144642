//! The library's functions and structs as they are: include/discgauze.h in Rust. A count or a place is 64 bits wide.
#![allow(missing_docs)]

pub const SEATS: usize = 9;
pub const POSITIONS: usize = 3;
pub const LINES: usize = 243;
pub const CARDS: usize = 416;
pub const BLOCK: usize = 512;

/// House options, given at opening; the header says what each may be.
#[repr(C)]
#[derive(Clone, Copy, PartialEq, Eq, Debug)]
pub struct Options {
    pub seats: u8,
    pub decks: u8,
    pub first: u8,
    pub later: u8,
    pub hands: u8,
    pub aces: u8,
    pub double: u8,
    pub limit: u8,
    pub insurance: u8,
    pub five: u8,
    pub prize: u8,
    pub device: u8,
    pub decider: u8,
    pub cut: u16,
    pub smallest: u32,
    pub largest: u32,
}

#[repr(C)]
#[derive(Clone, Copy, PartialEq, Eq, Debug)]
pub struct Hand {
    pub cards: [u8; 20],
    pub count: u8,
}

#[repr(C)]
#[derive(Clone, Copy, PartialEq, Eq, Debug)]
pub struct SeatHand {
    pub hand: Hand,
    pub origin: u8,
    pub ended: u8,
}

#[repr(C)]
#[derive(Clone, Copy, PartialEq, Eq, Debug)]
pub struct SeatHands {
    pub places: [SeatHand; 4],
    pub many: u8,
}

#[repr(C)]
#[derive(Clone, Copy, PartialEq, Eq, Debug)]
pub struct Money {
    pub purse: u64,
    pub stake: u32,
    pub insurance: u32,
    pub sides: [u32; 4],
}

#[repr(C)]
#[derive(Clone, Copy, PartialEq, Eq, Debug)]
pub struct Seat {
    pub money: Money,
    pub others: [Money; 2],
    pub hands: SeatHands,
    pub first: [u8; 3],
}

#[repr(C)]
#[derive(Clone, Copy, PartialEq, Eq, Debug)]
pub struct Shoe {
    pub order: [u8; CARDS],
    pub drawn: usize,
    pub discards: [u8; CARDS],
    pub discarded: usize,
    pub begun: u8,
}

/// Numbers alone: every value of these bytes is a table, if perhaps a broken one.
#[repr(C)]
#[derive(Clone, Copy, PartialEq, Eq, Debug)]
pub struct Table {
    pub options: Options,
    pub tray: u64,
    pub seats: [Seat; SEATS],
    pub bank: Hand,
    pub shoe: Shoe,
}

#[repr(C)]
#[derive(Clone, Copy, PartialEq, Eq, Debug)]
pub struct HandScore {
    pub total: u8,
    pub soft: bool,
}

#[repr(C)]
#[derive(Clone, Copy, PartialEq, Eq, Debug)]
pub struct Scores {
    pub each: [HandScore; SEATS],
    pub count: usize,
}

#[repr(C)]
#[derive(Clone, Copy, PartialEq, Eq, Debug)]
pub struct Answer {
    pub number: u8,
    pub bank: Hand,
    pub lines: usize,
    pub scores: Scores,
}

#[repr(C)]
#[derive(Clone, Copy, PartialEq, Eq, Debug)]
pub struct Outcome {
    pub number: u8,
    pub table: Table,
}

#[repr(C)]
#[derive(Clone, Copy, PartialEq, Eq, Debug)]
pub struct Reply {
    pub answer: Answer,
    pub table: Table,
}

#[repr(C)]
#[derive(Clone, Copy, PartialEq, Eq, Debug)]
pub struct TableShown {
    pub options: Options,
    pub tray: u64,
    pub layout: u64,
    pub purses: u64,
    pub left: usize,
    pub discards: usize,
    pub bank: Hand,
}

#[repr(C)]
#[derive(Clone, Copy, PartialEq, Eq, Debug)]
pub struct TurnShown {
    pub somebody: bool,
    pub seat: usize,
    pub place: usize,
    pub position: u8,
}

#[repr(C)]
#[derive(Clone, Copy, PartialEq, Eq, Debug)]
pub struct SeatShown {
    pub purse: u64,
    pub stake: u32,
    pub insurance: u32,
    pub sides: [u32; 4],
    pub layout: u64,
    pub prizes: u64,
    pub hands: usize,
}

#[repr(C)]
#[derive(Clone, Copy, PartialEq, Eq, Debug)]
pub struct HandShown {
    pub hand: Hand,
    pub total: u8,
    pub soft: bool,
    pub wager: u64,
    pub origin: u8,
    pub ended: u8,
}

#[repr(C)]
#[derive(Clone, Copy, PartialEq, Eq, Debug)]
pub struct Lights {
    pub buy: bool,
    pub cash: bool,
    pub stake: bool,
    pub insure: bool,
    pub stand: bool,
    pub draw: bool,
    pub double: bool,
    pub split: bool,
    pub surrender: bool,
    pub even: bool,
    pub five: bool,
    pub pair: bool,
    pub sevens: bool,
    pub more: bool,
    pub less: bool,
}

#[repr(C)]
#[derive(Clone, Copy, PartialEq, Eq, Debug)]
pub struct SeatLights {
    pub guests: [Lights; POSITIONS],
}

#[repr(C)]
#[derive(Clone, Copy, PartialEq, Eq, Debug)]
pub struct Row {
    pub seat: usize,
    pub place: usize,
    pub hand: Hand,
    pub total: u8,
}

#[repr(C)]
#[derive(Clone, Copy, PartialEq, Eq, Debug)]
pub struct Screen {
    pub seats: [SeatLights; SEATS],
    pub rows: [Row; 6],
    pub shown: usize,
    pub beyond: usize,
}

#[repr(C)]
#[derive(Clone, Copy, PartialEq, Eq, Debug)]
pub struct FileCall {
    pub found: bool,
    pub kind: u8,
    pub seat: u8,
    pub position: u8,
    pub amount: u64,
    pub order: usize,
    pub cards: usize,
    pub behind: usize,
}

#[repr(C)]
#[derive(Clone, Copy)]
pub struct Writer {
    pub options: Options,
    pub many: u8,
    pub bytes: [u8; 500],
}

#[repr(C)]
#[derive(Clone, Copy)]
pub struct Written {
    pub number: u8,
    pub blocks: u8,
    pub first: [u8; BLOCK],
    pub second: [u8; BLOCK],
    pub writer: Writer,
}

#[repr(C)]
#[derive(Clone, Copy)]
pub struct Last {
    pub blocks: u8,
    pub block: [u8; BLOCK],
}

#[repr(C)]
#[derive(Clone, Copy, PartialEq, Eq, Debug)]
pub struct BankChances {
    pub number: u8,
    pub all: u64,
    pub counts: [u64; 8],
}

#[repr(C)]
#[derive(Clone, Copy, PartialEq, Eq, Debug)]
pub struct FacesLeft {
    pub number: u8,
    pub up: u8,
    pub left: [u8; 52],
}

#[repr(C)]
#[derive(Clone, Copy, PartialEq, Eq, Debug)]
pub struct WaysCount {
    pub number: u8,
    pub count: usize,
}

#[repr(C)]
#[derive(Clone, Copy, PartialEq, Eq, Debug)]
pub struct Way {
    pub number: u8,
    pub found: bool,
    pub length: usize,
    pub decisions: [u8; 8],
    pub sum: i64,
}

extern "C" {
    pub fn discgauze_open(table: &mut Table, options: Options, order: *const u8, cards: usize) -> u8;
    pub fn discgauze_step(
        table: &mut Table,
        kind: u8,
        seat: u8,
        position: u8,
        amount: u64,
        order: *const u8,
        cards: usize,
        answer: &mut Answer,
        names: &mut [u32; LINES],
        nets: &mut [i64; LINES],
    ) -> u8;
    pub fn discgauze_opened(options: Options, order: *const u8, cards: usize) -> Outcome;
    pub fn discgauze_stepped(
        table: Table,
        kind: u8,
        seat: u8,
        position: u8,
        amount: u64,
        order: *const u8,
        cards: usize,
        names: &mut [u32; LINES],
        nets: &mut [i64; LINES],
    ) -> Reply;
    pub fn discgauze_broken(table: Table) -> bool;
    pub fn discgauze_line_seat(name: u32) -> u8;
    pub fn discgauze_line_position(name: u32) -> u8;
    pub fn discgauze_line_place(name: u32) -> u8;
    pub fn discgauze_line_kind(name: u32) -> u8;
    pub fn discgauze_shown_table(table: Table) -> TableShown;
    pub fn discgauze_shown_turn(table: Table) -> TurnShown;
    pub fn discgauze_shown_seat(table: Table, seat: u8, position: u8) -> SeatShown;
    pub fn discgauze_shown_hand(table: Table, seat: u8, position: u8, place: usize) -> HandShown;
    pub fn discgauze_shown_screen(table: Table) -> Screen;
    pub fn discgauze_file_number(file: *const u8, bytes: usize) -> u8;
    pub fn discgauze_file_opened(file: *const u8, bytes: usize) -> Outcome;
    pub fn discgauze_file_first(file: *const u8, bytes: usize) -> usize;
    pub fn discgauze_file_call(file: *const u8, bytes: usize, at: usize) -> FileCall;
    pub fn discgauze_file_begin(options: Options, order: *const u8, cards: usize) -> Written;
    pub fn discgauze_file_add(
        writer: Writer,
        kind: u8,
        seat: u8,
        position: u8,
        amount: u64,
        order: *const u8,
        cards: usize,
    ) -> Written;
    pub fn discgauze_file_end(writer: Writer) -> Last;
    pub fn discgauze_chances(up: u8, left: *const u8, faces: usize, depth: u8) -> BankChances;
    pub fn discgauze_faces_left(table: Table) -> FacesLeft;
    pub fn discgauze_ways_count(table: Table) -> WaysCount;
    pub fn discgauze_way_at(table: Table, place: usize) -> Way;
}
