//! A random run of a million calls: in place and by value the library gives the same table, the same answer and the same lines, every byte of every field.
use discgauze::ffi::{self, LINES};
use discgauze::{Options, Table};

/// Numbers that look like chance, the same in every run (xorshift).
struct Dice(u64);

impl Dice {
    fn below(&mut self, n: u64) -> u64 {
        self.0 ^= self.0 << 13;
        self.0 ^= self.0 >> 7;
        self.0 ^= self.0 << 17;
        (self.0 >> 11) % n
    }

    fn one(&mut self, of: &[u64]) -> u64 {
        of[self.below(of.len() as u64) as usize]
    }
}

fn options(dice: &mut Dice) -> Options {
    let device = 1 + dice.below(3) as u8;
    let decks = if device == 2 { 1 } else { 1 + dice.below(8) as u8 };
    Options {
        seats: 6 + dice.below(4) as u8,
        decks,
        first: 1 + dice.below(2) as u8,
        later: if device == 2 { 0 } else { dice.below(3) as u8 },
        hands: 2 + dice.below(3) as u8,
        aces: dice.below(2) as u8,
        double: 1 + dice.below(2) as u8,
        limit: dice.below(2) as u8,
        insurance: 1 + dice.below(2) as u8,
        five: dice.below(2) as u8,
        prize: dice.below(2) as u8,
        device,
        decider: 1 + dice.below(2) as u8,
        cut: if device == 1 && decks > 1 { 30 } else { 0 },
        smallest: 2,
        largest: 100,
    }
}

/// A shuffled order; one in fifty is spoilt.
fn order(dice: &mut Dice, decks: u8) -> Vec<u8> {
    let mut cards: Vec<u8> = (0..decks).flat_map(|_| 0..52).collect();
    for i in (1..cards.len()).rev() {
        cards.swap(i, dice.below(i as u64 + 1) as usize);
    }
    match dice.below(150) {
        0 => cards[0] = 52,
        1 => cards[0] = cards[1],
        2 => {
            cards.pop();
        }
        _ => {}
    }
    cards
}

/// Kind, seat, position and amount: mostly what may come next, else anything.
fn choice(dice: &mut Dice, table: &Table) -> (u8, u8, u8, u64) {
    let o = table.inside().options;
    let (mut seat, mut position) = (dice.below(o.seats as u64) as u8, dice.one(&[0, 0, 0, 1, 2]) as u8);
    let amount = dice.one(&[0, 1, 2, 5, 10, 10, 20, 20, 50, 100, 1000, 100000, 10000000, u64::MAX]);
    if dice.below(12) == 0 {
        return (dice.below(24) as u8, dice.below(11) as u8, dice.below(4) as u8, amount);
    }
    let dealt = table.inside().bank.count > 0;
    let kind = match table.turn() {
        Some(turn) if dice.below(8) != 0 => {
            seat = turn.guest.seat;
            position = turn.guest.position;
            dice.one(&[8, 8, 9, 9, 9, 10, 11, 11, 11, 12, 13, 14])
        }
        Some(_) => dice.one(&[7, 7, 7, 12, 16]),
        None if dealt => dice.one(&[15, 15, 15, 16, 7]),
        None => dice.one(&[1, 2, 3, 3, 3, 4, 5, 5, 5, 5, 5, 5, 6, 6, 6, 16, 17, 18, 19, 20, 21]),
    };
    let amount = match kind {
        1 => 1_000_000,
        3 => 1000,
        5 => dice.one(&[2, 10, 20, 21, 100, 102]),
        7 => u64::from(if position == 0 { table.inside().seats[seat as usize % 9].money.stake } else { 20 }) / 2,
        18.. => dice.one(&[1, 5, 100]),
        _ => amount,
    };
    (kind as u8, seat, position, amount)
}

#[test]
fn a_million_calls() {
    let mut dice = Dice(0x9E37_79B9_7F4A_7C15);
    let mut counts = [0u32; 256];
    let mut table: Option<Table> = None;
    let (mut calls, mut lines) = (0, 0usize);
    while calls < 1_000_000 {
        if table.is_none() || dice.below(2000) == 0 {
            let o = options(&mut dice);
            let cards = order(&mut dice, o.decks);
            table = opened(o, &cards);
            continue;
        }
        let now = table.as_mut().unwrap();
        if dice.below(5000) == 0 {
            let mut inside = *now.inside();
            inside.shoe.drawn = dice.below(500) as usize;
            *now = Table::from_inside(inside);
        }
        let decks = now.inside().options.decks;
        let (kind, seat, position, amount) = choice(&mut dice, now);
        let cards = if kind == 17 { order(&mut dice, decks) } else { Vec::new() };
        let answer = both(now, kind, seat, position, amount, &cards);
        counts[answer.number as usize] += 1;
        lines += answer.lines;
        calls += 1;
        if answer.number == 1 {
            table = None;
        }
    }
    let seen: Vec<usize> = (0..256).filter(|&n| counts[n] > 0).collect();
    let each: Vec<String> = seen.iter().map(|&n| format!("{n}: {}", counts[n])).collect();
    println!("{calls} calls, {lines} pay lines; the numbers and how often: {}", each.join(", "));
    assert!(counts[0] > 300_000 && lines > 10_000);
    let wanted = [0, 1, 3, 4, 5, 6, 7, 8, 9, 10, 11, 12, 13, 14, 15, 16, 17, 18, 19, 20, 22, 23, 255];
    assert!(wanted.iter().all(|n| seen.contains(n)), "a number never came: {seen:?}");
}

/// An opening both ways: in place a refused one leaves what was there.
fn opened(o: Options, cards: &[u8]) -> Option<Table> {
    let by_value = unsafe { ffi::discgauze_opened(o, cards.as_ptr(), cards.len()) };
    let mut here = by_value.table;
    here.tray = 77;
    let before = here;
    let number = unsafe { ffi::discgauze_open(&mut here, o, cards.as_ptr(), cards.len()) };
    assert_eq!(number, by_value.number);
    if number != 0 {
        assert_eq!(here, before);
        return None;
    }
    assert_eq!(here, by_value.table);
    Some(Table::from_inside(here))
}

/// A call both ways. The arrays begin with marks, so that a line more or less would show.
fn both(table: &mut Table, kind: u8, seat: u8, position: u8, amount: u64, cards: &[u8]) -> ffi::Answer {
    let before = *table.inside();
    let (mut names, mut nets) = ([0xA5A5_A5A5u32; LINES], [-77i64; LINES]);
    let (mut other_names, mut other_nets) = (names, nets);
    let by_value = unsafe {
        ffi::discgauze_stepped(before, kind, seat, position, amount, cards.as_ptr(), cards.len(), &mut other_names, &mut other_nets)
    };
    let mut here = before;
    let mut answer = by_value.answer;
    answer.number = !answer.number;
    answer.lines = 999;
    answer.bank.cards[19] = 99;
    let number = unsafe {
        ffi::discgauze_step(&mut here, kind, seat, position, amount, cards.as_ptr(), cards.len(), &mut answer, &mut names, &mut nets)
    };
    assert_eq!(number, answer.number);
    assert_eq!(answer, by_value.answer);
    assert_eq!(here, by_value.table);
    assert_eq!(names, other_names);
    assert_eq!(nets, other_nets);
    assert!(names[answer.lines..].iter().all(|&name| name == 0xA5A5_A5A5));
    assert!(number == 0 || here == before);
    *table = Table::from_inside(here);
    answer
}
