//! The marked session of document 01, its file, and what is refused.
use discgauze::{chances, Call, FileWriter, Guest, Options, Paid, Refusal, SessionFile, Table};

const EXPECTED: &str = include_str!("../../../crates/session/stdout");
const RECORDED: &[u8] = include_bytes!("../../../crates/record/stdout");

fn order() -> Vec<u8> {
    let begins = [51u8, 6, 5, 19, 32, 9, 45, 22, 3];
    begins.into_iter().chain((0..52).filter(|face| !begins.contains(face))).collect()
}

const SEAT: Guest = Guest { seat: 2, position: 0 };

fn calls() -> Vec<(&'static str, Call)> {
    vec![
        ("fill", Call::Fill(1000)),
        ("buy", Call::Buy(SEAT, 100)),
        ("stake", Call::Stake(SEAT, 20)),
        ("deal", Call::Deal),
        ("insure", Call::Insure(SEAT, 10)),
        ("split", Call::Split(SEAT)),
        ("double", Call::Double(SEAT)),
        ("stand", Call::Stand(SEAT)),
        ("close", Call::Close),
        ("stand", Call::Stand(SEAT)),
    ]
}

fn row(name: &str, number: u8, table: &Table) -> String {
    let shown = table.shown();
    format!("{name} {number} {} {} {} {}\n", shown.tray, shown.layout, shown.purses, shown.left)
}

#[test]
fn the_marked_session() {
    let mut table = Table::open(&Options::marked(), &order()).unwrap();
    let mut text = String::from("call no tray layout purses left\n") + &row("open", 0, &table);
    for (name, call) in calls() {
        let by_value = table.after(&call);
        let answer = table.play(&call);
        text += &row(name, answer.as_ref().map_or_else(|refusal| refusal.number(), |_| 0), &table);
        assert_eq!(by_value.map(|(t, a)| (t == table, a)), answer.map(|a| (true, a)));
    }
    assert_eq!(text, EXPECTED);
}

#[test]
fn its_answers() {
    let mut table = Table::open(&Options::marked(), &order()).unwrap();
    let mut answers = Vec::new();
    for (_, call) in calls() {
        answers.push(table.play(&call));
    }
    let split = answers[5].as_ref().unwrap();
    assert_eq!(split.scores.iter().map(|s| (s.total, s.soft)).collect::<Vec<_>>(), [(14, false), (17, false)]);
    let close = answers[8].as_ref().unwrap();
    assert_eq!(close.bank[0], 5);
    assert_eq!(close.lines.iter().map(|l| (l.guest, l.paid, l.net)).collect::<Vec<_>>(), [(SEAT, Paid::Hand(0), 40), (SEAT, Paid::Hand(1), -20)]);
    assert_eq!(answers[4], Err(Refusal::Barred));
    assert_eq!(answers[9], Err(Refusal::NoRound));
}

#[test]
fn its_file() {
    let mut table = Table::open(&Options::marked(), &order()).unwrap();
    let mut writer = FileWriter::begin(&Options::marked(), &order()).unwrap();
    for (_, call) in calls() {
        if table.play(&call).is_ok() {
            writer.add(&call).unwrap();
        }
    }
    let bytes = writer.end();
    assert_eq!(bytes, RECORDED);
    let file = SessionFile::check(&bytes).unwrap();
    let mut again = file.first();
    for call in file.calls() {
        again.play(&call).unwrap();
    }
    assert_eq!(again, table);
    for place in 0..bytes.len() {
        let mut altered = bytes.clone();
        altered[place] ^= 1;
        assert!(SessionFile::check(&altered).is_err(), "byte {place} altered");
    }
    assert_eq!(SessionFile::check(&bytes[1..]).err(), Some(Refusal::FileLength));
    assert_eq!(SessionFile::check(&[]).err(), Some(Refusal::FileLength));
}

#[test]
fn a_loaded_order_is_in_the_file() {
    let options = Options { device: 2, ..Options::marked() };
    let mut table = Table::open(&options, &order()).unwrap();
    let mut writer = FileWriter::begin(&options, &order()).unwrap();
    let mut other = order();
    other.reverse();
    let calls = [Call::Fill(1000), Call::Buy(SEAT, 100), Call::Load(other.clone()), Call::Stake(SEAT, 20), Call::Deal];
    for call in &calls {
        table.play(call).unwrap();
        writer.add(call).unwrap();
    }
    assert_eq!(table.play(&Call::Load(other[1..].to_vec())), Err(Refusal::WrongOrder));
    let bytes = writer.end();
    let file = SessionFile::check(&bytes).unwrap();
    assert_eq!(file.calls().collect::<Vec<_>>(), calls);
}

#[test]
fn every_refusal_has_its_number_and_words() {
    let numbers: Vec<u8> = Refusal::ALL.iter().map(|r| r.number()).collect();
    assert_eq!(numbers, (1..30).chain([255]).collect::<Vec<u8>>());
    for refusal in Refusal::ALL {
        assert_eq!(refusal.to_string(), format!("{} {}", refusal.number(), refusal.words()));
    }
    assert_eq!(Refusal::NotInTurn.to_string(), "11 not that seat's turn");
}

#[test]
fn what_is_refused() {
    let order = order();
    assert_eq!(Table::open(&Options { seats: 5, ..Options::marked() }, &order).err(), Some(Refusal::WrongOptions));
    assert_eq!(Table::open(&Options::marked(), &order[1..]).err(), Some(Refusal::WrongOrder));
    assert_eq!(Table::open(&Options::marked(), &[]).err(), Some(Refusal::WrongOrder));
    let mut table = Table::open(&Options::marked(), &order).unwrap();
    let before = table.clone();
    assert_eq!(table.play(&Call::Stand(Guest { seat: 9, position: 0 })), Err(Refusal::NoRound));
    assert_eq!(table.play(&Call::Buy(Guest { seat: 6, position: 0 }, 1)), Err(Refusal::NoSeat));
    assert_eq!(table.play(&Call::Buy(Guest { seat: 5, position: 3 }, 1)), Err(Refusal::NoPosition));
    assert_eq!(table.play(&Call::Fill(0)), Err(Refusal::WrongAmount));
    assert_eq!(table.play(&Call::Credit(1)), Err(Refusal::ShortTray));
    assert_eq!(table, before);
    let mut inside = *table.inside();
    inside.shoe.order[51] = 52;
    let mut damaged = Table::from_inside(inside);
    assert!(damaged.is_broken());
    assert_eq!(damaged.play(&Call::Deal), Err(Refusal::Broken));
    assert_eq!(*damaged.inside(), inside);
}

#[test]
fn the_screen_and_the_turn() {
    let mut table = Table::open(&Options::marked(), &order()).unwrap();
    for (_, call) in calls().into_iter().take(4) {
        table.play(&call).unwrap();
    }
    let turn = table.turn().unwrap();
    assert_eq!((turn.guest, turn.place), (SEAT, 0));
    let screen = table.screen();
    let lights = screen.seats[2].guests[0];
    assert!(lights.split && lights.stand && lights.draw && lights.double && lights.surrender && !lights.buy && !lights.insure);
    assert_eq!((screen.shown, screen.beyond, screen.rows[0].seat, screen.rows[0].total), (1, 0, 2, 14));
    let hand = table.hand(SEAT, 0);
    assert_eq!((&hand.hand.cards[..hand.hand.count as usize], hand.total, hand.soft, hand.wager), (&[6, 19][..], 14, false, 20));
    assert_eq!(table.guest(SEAT).stake, 20);
}

#[test]
fn chances_and_ways() {
    let left: Vec<u8> = (0..52).map(|face| u8::from(face != 5)).collect();
    let found = chances(5, &left, 3).unwrap();
    assert_eq!(found.all, 51 * 50 * 49);
    assert_eq!(found.counts.iter().sum::<u64>(), found.all);
    assert_eq!(chances(5, &left[1..], 3).unwrap_err(), Refusal::WrongOrder);
    assert_eq!(chances(5, &left, 7).unwrap_err(), Refusal::WrongDepth);
    let mut table = Table::open(&Options::marked(), &order()).unwrap();
    assert_eq!(table.ways().unwrap_err(), Refusal::NoRound);
    assert_eq!(table.chances(2).unwrap_err(), Refusal::NoRound);
    for (_, call) in calls().into_iter().take(4) {
        table.play(&call).unwrap();
    }
    assert_eq!(table.chances(2).unwrap().all, 48 * 47);
    for (decisions, sum) in table.ways().unwrap() {
        let mut played = table.clone();
        for kind in decisions {
            played.play(&Call::of(kind, SEAT, 0, &[]).unwrap()).unwrap();
        }
        let lines = played.play(&Call::Close).unwrap().lines;
        let prizes = sum - lines.iter().map(|l| l.net).sum::<i64>();
        assert!(prizes >= 0 && prizes % 60 == 0);
        assert_eq!(played.guest(SEAT).purse as i64, 100 + sum);
    }
}
