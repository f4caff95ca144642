//! A blackjack table in Rust: a safe type over the library `libdiscgauze.a`, whose every function is proved against its contract.
//!
//! ```
//! use discgauze::{Call, Guest, Options, Table};
//!
//! let house = Options::marked();
//! let mut table = Table::open(&house, &(0..52).collect::<Vec<u8>>())?;
//! let guest = Guest { seat: 2, position: 0 };
//! table.play(&Call::Fill(1000))?;
//! table.play(&Call::Buy(guest, 100))?;
//! table.play(&Call::Stake(guest, 20))?;
//! assert_eq!(table.guest(guest).purse, 80);
//! assert_eq!(table.play(&Call::Stake(guest, 20)).unwrap_err().number(), 9);
//! # Ok::<(), discgauze::Refusal>(())
//! ```
#![warn(missing_docs)]

pub mod ffi;
mod file;
mod refusal;

pub use ffi::{BankChances, HandScore, HandShown, Options, Screen, SeatShown, TableShown};
pub use file::{FileWriter, SessionFile};
pub use refusal::Refusal;

use ffi::LINES;

/// The seat that a call names, from 0, and the position of the guest there: 0 the seated guest, 1 and 2 others who bet on the seat.
#[derive(Clone, Copy, PartialEq, Eq, Debug)]
pub struct Guest {
    /// The seat.
    pub seat: u8,
    /// The position.
    pub position: u8,
}

/// The kinds of side stakes.
#[derive(Clone, Copy, PartialEq, Eq, Debug)]
pub enum Side {
    /// The first two cards are a pair.
    Pair,
    /// The first two cards, or three, are sevens.
    Sevens,
    /// The first two cards come to more than 13.
    More,
    /// The first two cards come to less than 13.
    Less,
}

/// A call. A load brings the new order.
#[derive(Clone, PartialEq, Eq, Debug)]
#[allow(missing_docs)]
pub enum Call {
    Fill(u64),
    Credit(u64),
    Buy(Guest, u64),
    Cash(Guest, u64),
    Stake(Guest, u64),
    Deal,
    Insure(Guest, u64),
    Stand(Guest),
    Draw(Guest),
    Double(Guest),
    Split(Guest),
    Surrender(Guest),
    Even(Guest),
    Five(Guest),
    Close,
    Void,
    Load(Vec<u8>),
    Side(Guest, Side, u64),
}

/// A call as the library takes it.
pub(crate) struct Code<'a> {
    pub kind: u8,
    pub guest: Guest,
    pub amount: u64,
    pub order: &'a [u8],
}

impl Call {
    pub(crate) fn code(&self) -> Code<'_> {
        let nobody = Guest { seat: 0, position: 0 };
        let (kind, guest, amount) = match *self {
            Call::Fill(n) => (1, nobody, n),
            Call::Credit(n) => (2, nobody, n),
            Call::Buy(g, n) => (3, g, n),
            Call::Cash(g, n) => (4, g, n),
            Call::Stake(g, n) => (5, g, n),
            Call::Deal => (6, nobody, 0),
            Call::Insure(g, n) => (7, g, n),
            Call::Stand(g) => (8, g, 0),
            Call::Draw(g) => (9, g, 0),
            Call::Double(g) => (10, g, 0),
            Call::Split(g) => (11, g, 0),
            Call::Surrender(g) => (12, g, 0),
            Call::Even(g) => (13, g, 0),
            Call::Five(g) => (14, g, 0),
            Call::Close => (15, nobody, 0),
            Call::Void => (16, nobody, 0),
            Call::Load(_) => (17, nobody, 0),
            Call::Side(g, side, n) => (18 + side as u8, g, n),
        };
        let order = match self {
            Call::Load(order) => &order[..],
            _ => &[],
        };
        Code { kind, guest, amount, order }
    }

    /// The call of these numbers; none where there is no such kind.
    pub fn of(kind: u8, guest: Guest, amount: u64, order: &[u8]) -> Option<Call> {
        Some(match kind {
            1 => Call::Fill(amount),
            2 => Call::Credit(amount),
            3 => Call::Buy(guest, amount),
            4 => Call::Cash(guest, amount),
            5 => Call::Stake(guest, amount),
            6 => Call::Deal,
            7 => Call::Insure(guest, amount),
            8 => Call::Stand(guest),
            9 => Call::Draw(guest),
            10 => Call::Double(guest),
            11 => Call::Split(guest),
            12 => Call::Surrender(guest),
            13 => Call::Even(guest),
            14 => Call::Five(guest),
            15 => Call::Close,
            16 => Call::Void,
            17 => Call::Load(order.to_vec()),
            18 => Call::Side(guest, Side::Pair, amount),
            19 => Call::Side(guest, Side::Sevens, amount),
            20 => Call::Side(guest, Side::More, amount),
            21 => Call::Side(guest, Side::Less, amount),
            _ => return None,
        })
    }
}

impl Options {
    /// The house of document 01's marked session: one deck in a shoe.
    pub fn marked() -> Options {
        Options {
            seats: 6,
            decks: 1,
            first: 1,
            later: 0,
            hands: 4,
            aces: 0,
            double: 1,
            limit: 0,
            insurance: 1,
            five: 0,
            prize: 1,
            device: 1,
            decider: 1,
            cut: 0,
            smallest: 2,
            largest: 100,
        }
    }
}

/// What a pay line is for.
#[derive(Clone, Copy, PartialEq, Eq, Debug)]
pub enum Paid {
    /// The hand in that place.
    Hand(u8),
    /// The insurance.
    Insurance,
    /// A side stake.
    Side(Side),
}

/// A pay line of a close: what the guest gains or loses by it.
#[derive(Clone, Copy, PartialEq, Eq, Debug)]
pub struct PayLine {
    /// Whose line it is.
    pub guest: Guest,
    /// What for.
    pub paid: Paid,
    /// The net.
    pub net: i64,
}

impl PayLine {
    fn of(name: u32, net: i64) -> PayLine {
        // SAFETY: these take a number alone.
        let (seat, position, place, kind) = unsafe {
            (
                ffi::discgauze_line_seat(name),
                ffi::discgauze_line_position(name),
                ffi::discgauze_line_place(name),
                ffi::discgauze_line_kind(name),
            )
        };
        let paid = match kind {
            0 => Paid::Hand(place),
            1 => Paid::Insurance,
            2 => Paid::Side(Side::Pair),
            3 => Paid::Side(Side::Sevens),
            4 => Paid::Side(Side::More),
            _ => Paid::Side(Side::Less),
        };
        PayLine { guest: Guest { seat, position }, paid, net }
    }
}

/// What an accepted call answers: the scores that the dealer calls aloud, and of a close the bank's cards and the pay lines.
#[derive(Clone, PartialEq, Eq, Debug)]
pub struct Answer {
    /// Totals, and whether each is soft.
    pub scores: Vec<HandScore>,
    /// The bank's cards.
    pub bank: Vec<u8>,
    /// The pay lines, from the left.
    pub lines: Vec<PayLine>,
}

impl Answer {
    fn of(answer: &ffi::Answer, names: &[u32; LINES], nets: &[i64; LINES]) -> Answer {
        Answer {
            scores: answer.scores.each[..answer.scores.count].to_vec(),
            bank: answer.bank.cards[..answer.bank.count as usize].to_vec(),
            lines: (0..answer.lines).map(|i| PayLine::of(names[i], nets[i])).collect(),
        }
    }
}

/// An answer before a call.
pub(crate) fn no_answer() -> ffi::Answer {
    ffi::Answer {
        number: 0,
        bank: ffi::Hand { cards: [0; 20], count: 0 },
        lines: 0,
        scores: ffi::Scores { each: [HandScore { total: 0, soft: false }; ffi::SEATS], count: 0 },
    }
}

/// The seat, the place of the hand and the position of the guest whose turn it is.
#[derive(Clone, Copy, PartialEq, Eq, Debug)]
pub struct Turn {
    /// The guest who decides.
    pub guest: Guest,
    /// The place of the hand.
    pub place: usize,
}

/// A table. It can be copied and compared; nothing else is kept.
#[derive(Clone, PartialEq, Eq, Debug)]
pub struct Table(ffi::Table);

impl Table {
    /// A new table with these options and this order.
    pub fn open(options: &Options, order: &[u8]) -> Result<Table, Refusal> {
        // SAFETY: the slice's pointer and length.
        let opened = unsafe { ffi::discgauze_opened(*options, order.as_ptr(), order.len()) };
        Refusal::of(opened.number)?;
        Ok(Table(opened.table))
    }

    /// One call, in place. A refused one leaves the table as it was.
    pub fn play(&mut self, call: &Call) -> Result<Answer, Refusal> {
        let c = call.code();
        let (mut names, mut nets) = ([0; LINES], [0; LINES]);
        let mut answer = no_answer();
        // SAFETY: exclusive references to whole values, the slice's pointer and length.
        let number = unsafe {
            ffi::discgauze_step(
                &mut self.0,
                c.kind,
                c.guest.seat,
                c.guest.position,
                c.amount,
                c.order.as_ptr(),
                c.order.len(),
                &mut answer,
                &mut names,
                &mut nets,
            )
        };
        Refusal::of(number)?;
        Ok(Answer::of(&answer, &names, &nets))
    }

    /// The table after one call, and its answer; this table stays.
    pub fn after(&self, call: &Call) -> Result<(Table, Answer), Refusal> {
        let c = call.code();
        let (mut names, mut nets) = ([0; LINES], [0; LINES]);
        // SAFETY: a table by value, exclusive references to whole arrays, the slice's pointer and length.
        let reply = unsafe {
            ffi::discgauze_stepped(
                self.0,
                c.kind,
                c.guest.seat,
                c.guest.position,
                c.amount,
                c.order.as_ptr(),
                c.order.len(),
                &mut names,
                &mut nets,
            )
        };
        Refusal::of(reply.answer.number)?;
        Ok((Table(reply.table), Answer::of(&reply.answer, &names, &nets)))
    }

    /// Whether the table is broken. One that was opened and played never is.
    pub fn is_broken(&self) -> bool {
        // SAFETY: a table by value, here and below.
        unsafe { ffi::discgauze_broken(self.0) }
    }

    /// Options, money and cards of the whole table.
    pub fn shown(&self) -> TableShown {
        unsafe { ffi::discgauze_shown_table(self.0) }
    }

    /// Whose turn it is.
    pub fn turn(&self) -> Option<Turn> {
        let turn = unsafe { ffi::discgauze_shown_turn(self.0) };
        turn.somebody.then_some(Turn { guest: Guest { seat: turn.seat as u8, position: turn.position }, place: turn.place })
    }

    /// What a guest's display has; zeros where there is no such guest.
    pub fn guest(&self, guest: Guest) -> SeatShown {
        unsafe { ffi::discgauze_shown_seat(self.0, guest.seat, guest.position) }
    }

    /// A hand in its place, with that guest's wager.
    pub fn hand(&self, guest: Guest, place: usize) -> HandShown {
        unsafe { ffi::discgauze_shown_hand(self.0, guest.seat, guest.position, place) }
    }

    /// The dealer's screen.
    pub fn screen(&self) -> Screen {
        unsafe { ffi::discgauze_shown_screen(self.0) }
    }

    /// What the bank may make of its up card, by what is seen, within so many cards.
    pub fn chances(&self, depth: u8) -> Result<BankChances, Refusal> {
        let faces = unsafe { ffi::discgauze_faces_left(self.0) };
        Refusal::of(faces.number)?;
        chances(faces.up, &faces.left, depth)
    }

    /// Every way to play the one staked seat of a just dealt table: its decisions by kind of call, and what it brings.
    pub fn ways(&self) -> Result<Vec<(Vec<u8>, i64)>, Refusal> {
        let count = unsafe { ffi::discgauze_ways_count(self.0) };
        Refusal::of(count.number)?;
        let way = |place| unsafe { ffi::discgauze_way_at(self.0, place) };
        Ok((0..count.count).map(way).map(|w| (w.decisions[..w.length].to_vec(), w.sum)).collect())
    }

    /// The table as the library has it.
    pub fn inside(&self) -> &ffi::Table {
        &self.0
    }

    /// A table from elsewhere. Any value is taken: a damaged one is broken, and refuses every call.
    pub fn from_inside(table: ffi::Table) -> Table {
        Table(table)
    }
}

/// All ordered draws of so many cards that are left, by where the bank's rule ends in them.
pub fn chances(up: u8, left: &[u8], depth: u8) -> Result<BankChances, Refusal> {
    // SAFETY: the slice's pointer and length.
    let chances = unsafe { ffi::discgauze_chances(up, left.as_ptr(), left.len(), depth) };
    Refusal::of(chances.number)?;
    Ok(chances)
}
