// The other half of the comparison (web/test/agree.c): plays the same seeded random calls over WebAssembly and compares each struct with the native one that comes in on
// standard input, byte for byte. Only the bytes between fields, which no field has, are left out.
//   agree SEED CALLS | node web/test/agree.js MODULE SEED CALLS
'use strict';
const fs = require('fs');
const Lower = require('../lower.js');
const { types: T, LINES } = require('../engine.js');

const [module_, seedWord, callsWord] = process.argv.slice(2);
const wasm = Lower.startNow(fs.readFileSync(module_));

// ---- what comes in

let chunk = Buffer.alloc(0);
let total = 0;
function take(many) {
  while (chunk.length < many) {
    const more = Buffer.allocUnsafe(1 << 20);
    const n = fs.readSync(0, more, 0, more.length, null);
    if (n === 0) throw new Error('the native program has ended too soon');
    chunk = Buffer.concat([chunk, more.subarray(0, n)]);
  }
  const part = Buffer.from(chunk.subarray(0, many));
  chunk = chunk.subarray(many);
  total += many;
  return part;
}

// The places of a type that no field has.
function gaps(type, from = 0, list = []) {
  if (type.of) {
    for (let i = 0; i < type.many; i += 1) gaps(type.of, from + i * type.of.size, list);
  } else if (type.fields) {
    let end = 0;
    for (const [name, of] of Object.entries(type.fields)) {
      for (; end < type.at[name]; end += 1) list.push(from + end);
      gaps(of, from + end, list);
      end += of.size;
    }
    for (; end < type.size; end += 1) list.push(from + end);
  }
  return list;
}
const gapsOf = new Map();

let call = 0;
let compared = 0;
function same(type, own, what) {
  const native = take(own.length);
  if (!gapsOf.has(type)) gapsOf.set(type, type ? gaps(type) : []);
  for (const at of gapsOf.get(type)) native[at] = own[at];
  compared += 1;
  if (Buffer.compare(native, own) === 0) return;
  const at = native.findIndex((byte, i) => byte !== own[i]);
  throw new Error(`call ${call}: ${what} differs at byte ${at}: native ${native[at]}, WebAssembly ${own[at]}`);
}
const sameNumber = (n, what) => same(null, Buffer.from([n & 255]), what);

// ---- the engine, by bytes

const memory = wasm.memory;
let free = Math.ceil(wasm.__heap_base.value / 16) * 16;
const place = (size) => {
  const at = free;
  free += Math.ceil(size / 16) * 16;
  if (free > memory.buffer.byteLength) memory.grow(Math.ceil((free - memory.buffer.byteLength) / 65536));
  return at;
};
const given = place(T.Table.size);
const back = place(4096);
const tableAt = place(T.Table.size);
const answerAt = place(T.Answer.size);
const namesAt = [place(4 * LINES), place(4 * LINES)];
const netsAt = [place(8 * LINES), place(8 * LINES)];
const lentAt = place(1 << 20);
const bytes = (at, many) => Buffer.from(memory.buffer.slice(at, at + many));
const put = (at, list) => (new Uint8Array(memory.buffer).set(list, at), at);
const lend = (list) => put(lentAt, list);
const value = (list) => put(given, list);
const gave = (type) => bytes(back, type.size);
const read = (type, list) => type.read(new DataView(list.buffer, list.byteOffset, list.length), 0);
const readTable = (type, name) => (table, ...more) => {
  wasm['discgauze_' + name](back, value(table), ...more);
  return gave(type);
};
const shownTable = readTable(T.TableShown, 'shown_table');
const shownTurn = readTable(T.TurnShown, 'shown_turn');
const shownSeat = readTable(T.SeatShown, 'shown_seat');
const shownHand = readTable(T.HandShown, 'shown_hand');
const shownScreen = readTable(T.Screen, 'shown_screen');
const facesLeft = readTable(T.FacesLeft, 'faces_left');
const waysCount = readTable(T.WaysCount, 'ways_count');
const wayAt = readTable(T.Way, 'way_at');

// ---- what is asked: the same in agree.c

let seed = Number(seedWord) >>> 0;
function below(n) {
  seed = (seed ^ (seed << 13)) >>> 0;
  seed = (seed ^ (seed >>> 17)) >>> 0;
  seed = (seed ^ (seed << 5)) >>> 0;
  return seed % n;
}
const oneIn = (n) => below(n) === 0;

let options = {};
let order = Buffer.alloc(0);

function shuffle() {
  const all = Buffer.alloc(416);
  let cards = Math.min(52 * options.decks, 416);
  const exchange = (i, k) => ([all[i], all[k]] = [all[k], all[i]]);
  if (cards > 0 && oneIn(2)) {
    const from = below(cards);
    for (let i = 0; i < cards; i += 1) {
      const at = (i + from) % cards;
      all[i] = Math.floor(at / (cards / 13)) + 13 * (at % 4);
    }
    for (let n = below(80); n > 0; n -= 1) {
      const k = below(cards);
      exchange(k, below(cards));
    }
  } else {
    for (let i = 0; i < cards; i += 1) all[i] = i % 52;
    for (let i = cards; i-- > 1; ) exchange(i, below(i + 1));
  }
  if (oneIn(16) && cards > 0) cards -= 1;
  if (oneIn(16)) all[0] = below(60);
  order = all.subarray(0, cards);
}

function house() {
  const o = {};
  o.device = 1 + below(3);
  o.seats = 6 + below(4);
  o.decks = o.device === 2 ? 1 : 1 + below(8);
  o.first = 1 + below(2);
  o.later = o.device === 2 ? 0 : below(3);
  o.hands = 2 + below(3);
  o.aces = below(2);
  o.double = 1 + below(2);
  o.limit = below(2);
  o.insurance = 1 + below(2);
  o.five = below(2);
  o.prize = below(2);
  o.decider = 1 + below(2);
  o.cut = o.device === 1 && o.decks > 1 ? 30 + below(26 * o.decks - 29) : 0;
  o.smallest = 2 * (1 + below(10));
  o.largest = o.smallest + 2 * below(500);
  if (oneIn(16)) o.cut = below(300);
  if (oneIn(16)) o.seats = below(256);
  if (oneIn(16)) o.decks = below(12);
  options = o;
}

function optionBytes(o) {
  const list = Buffer.alloc(T.Options.size);
  for (const [name, type] of Object.entries(T.Options.fields)) list.writeUIntLE(o[name], T.Options.at[name], type.size);
  return list;
}

const asked = { kind: 0, seat: 0, position: 0, amount: 0n };
const staked = { seat: 0, position: 0 };
const kinds = [8, 8, 8, 8, 9, 9, 9, 9, 9, 9, 9, 10, 10, 10, 11, 11, 12, 12, 13, 14];
const ask = (kind, amount) => {
  asked.kind = kind;
  if (amount !== undefined) asked.amount = BigInt(amount);
};

function decision({ hand, total }) {
  const dice = below(20);
  if (hand.count === 2 && total === 21 && dice < 12) return 13;
  if (hand.count === 5 && dice < 12) return 14;
  if (hand.count === 2 && hand.cards[0] % 13 === hand.cards[1] % 13 && dice < 14) return 11;
  if (total < 12 && dice < 14) return 9;
  return kinds[dice];
}

function betweenRounds(o, dice) {
  if (dice < 10) ask(1, 100000 + below(3000000));
  else if (dice < 12) ask(2);
  else if (dice < 28) ask(3, 1 + below(3000));
  else if (dice < 30) ask(4);
  else if (dice < 60) ask(5, o.smallest + 2 * below(1 + Math.floor((o.largest - o.smallest) / 16)));
  else if (dice < 74) {
    ask(18 + below(4));
    ask(asked.kind, 1 + below(20));
    Object.assign(asked, staked);
  } else if (dice < 93) ask(6);
  else if (dice < 98) ask(17);
  else ask(16);
}

function choose(table) {
  const shown = read(T.TableShown, shownTable(table));
  const turn = read(T.TurnShown, shownTurn(table));
  const dice = below(100);
  asked.seat = below(shown.options.seats + 1);
  asked.position = oneIn(2) ? 0 : below(3);
  asked.amount = BigInt(1 + below(400));
  if (dice < 5) {
    asked.kind = below(24);
    asked.seat = below(11);
    asked.position = below(5);
    asked.amount = BigInt(below(4294967295));
    asked.amount = BigInt.asUintN(64, asked.amount << BigInt(below(33)));
  } else if (shown.bank.count === 0) {
    betweenRounds(shown.options, dice);
  } else if (dice < (shown.bank.cards[0] % 13 === 0 ? 50 : 8)) {
    if (oneIn(2)) Object.assign(asked, staked);
    ask(7, Math.floor(read(T.SeatShown, shownSeat(table, asked.seat, asked.position)).stake / 2));
  } else if (dice < 51) {
    ask(dice === 50 ? 16 : 15);
  } else if (turn.somebody) {
    ask(decision(read(T.HandShown, shownHand(table, turn.seat, turn.position, BigInt(turn.place)))));
    asked.seat = turn.seat;
    asked.position = oneIn(8) ? below(3) : turn.position;
  } else {
    ask(15);
  }
}

// ---- what is compared

let file = [];

function written(list) {
  same(T.Written, list, 'what the writer gives');
  const w = read(T.Written, list);
  if (w.blocks > 0) file.push(w.first);
  if (w.blocks > 1) file.push(w.second);
  return Buffer.from(w.writer);
}

function readBack(writer) {
  wasm.discgauze_file_end(back, value(writer));
  const list = gave(T.Last);
  same(T.Last, list, 'the last block');
  const last = read(T.Last, list);
  if (last.blocks) file.push(last.block);
  const whole = Buffer.concat(file);
  const n = BigInt(whole.length);
  for (let turn = 0; turn < 2; turn += 1) {
    const at = lend(whole);
    sameNumber(wasm.discgauze_file_number(at, n), 'the number of a file');
    wasm.discgauze_file_options(back, at, n);
    same(T.Options, gave(T.Options), 'the options of a file');
    wasm.discgauze_file_opened(back, at, n);
    same(T.Outcome, gave(T.Outcome), 'the first table of a file');
    for (let next = wasm.discgauze_file_first(at, n); ; ) {
      wasm.discgauze_file_call(back, at, n, next);
      const found = gave(T.FileCall);
      same(T.FileCall, found, 'a call of a file');
      const of = read(T.FileCall, found);
      if (!of.found) break;
      next = BigInt(of.behind);
    }
    whole[below(whole.length)] += 1;
  }
  file = [];
}

function readings(table, turn) {
  const broken = wasm.discgauze_broken(value(table)) & 1;
  const seat = below(10);
  const position = below(4);
  sameNumber(broken, 'broken');
  same(T.TableShown, shownTable(table), 'the table shown');
  same(T.TurnShown, shownTurn(table), 'the turn shown');
  same(T.SeatShown, shownSeat(table, seat, position), 'a guest shown');
  same(T.HandShown, shownHand(table, seat, position, BigInt(below(5))), 'a hand shown');
  if (turn % 32 === 0) {
    const screen = shownScreen(table);
    const faces = facesLeft(table);
    const { up, left } = read(T.FacesLeft, faces);
    const many = 52 - (oneIn(8) ? 1 : 0);
    wasm.discgauze_chances(back, up, lend(left), BigInt(many), below(6));
    const chances = gave(T.BankChances);
    same(T.Screen, screen, 'the screen');
    same(T.FacesLeft, faces, 'the faces left');
    same(T.BankChances, chances, 'the chances');
  }
  if (turn % 256 === 0) {
    const count = waysCount(table);
    const way = wayAt(table, BigInt(below(20)));
    same(T.WaysCount, count, 'the count of ways');
    same(T.Way, way, 'a way');
  }
}

const accepted = new Array(24).fill(0);
const refused = new Set();

function step(table) {
  const { kind, seat, position, amount } = asked;
  const n = BigInt(order.length);
  put(tableAt, table);
  put(answerAt, Buffer.alloc(T.Answer.size));
  wasm.discgauze_stepped(back, value(table), kind, seat, position, amount, lend(order), n, namesAt[0], netsAt[0]);
  const reply = gave(T.Reply);
  const number = wasm.discgauze_step(tableAt, kind, seat, position, amount, lend(order), n, answerAt, namesAt[1], netsAt[1]) & 255;
  const next = bytes(tableAt, T.Table.size);
  const shown = read(T.Reply, reply);
  if (number !== shown.answer.number || Buffer.compare(bytes(namesAt[0], 4 * LINES), bytes(namesAt[1], 4 * LINES)) || Buffer.compare(bytes(netsAt[0], 8 * LINES), bytes(netsAt[1], 8 * LINES))) {
    throw new Error(`call ${call}: by pointer and by value differ`);
  }
  same(T.Reply, reply, 'the reply of call ' + kind);
  same(T.Table, next, 'the table behind call ' + kind);
  same(T.Answer, bytes(answerAt, T.Answer.size), 'the answer of call ' + kind);
  same(null, bytes(namesAt[0], 4 * LINES), 'the names of pay lines');
  same(null, bytes(netsAt[0], 8 * LINES), 'the nets of pay lines');
  const names = new DataView(memory.buffer, namesAt[0]);
  for (let i = 0; i < shown.answer.lines; i += 1) {
    same(null, Buffer.from(['seat', 'position', 'place', 'kind'].map((part) => wasm['discgauze_line_' + part](names.getUint32(4 * i, true)) & 255)), 'a line taken apart');
  }
  if (number === 0) accepted[kind] += 1;
  else refused.add(number);
  if (number === 0 && kind === 5) Object.assign(staked, { seat, position });
  return next;
}

function layouts() {
  for (const [name, type] of Object.entries(T)) {
    const native = (what, own) => {
      const found = take(4).readUInt32LE(0);
      if (found !== own) throw new Error(`${what}: ${found} in C, ${own} in web/engine.js`);
    };
    native('the size of ' + name, type.size);
    for (const field of Object.keys(type.fields)) native(name + '.' + field, type.at[field]);
  }
}

function main() {
  layouts();
  const calls = Number(callsWord);
  let table = null;
  let writer = null;
  let left = 0;
  let begun = false;
  for (call = 0; call < calls; call += 1) {
    if (left === 0) {
      if (begun) readBack(writer);
      left = 1 + below(600);
      house();
      shuffle();
      const n = BigInt(order.length);
      wasm.discgauze_opened(back, value(optionBytes(options)), lend(order), n);
      const opened = gave(T.Outcome);
      const outcome = read(T.Outcome, opened);
      put(tableAt, outcome.table);
      const number = wasm.discgauze_open(tableAt, value(optionBytes(options)), lend(order), n);
      wasm.discgauze_file_begin(back, value(optionBytes(options)), lend(order), n);
      const w = gave(T.Written);
      same(T.Outcome, opened, 'the opening');
      sameNumber(number, 'the number of the opening');
      file = [];
      writer = written(w);
      table = (number & 255) === 0 ? bytes(tableAt, T.Table.size) : Buffer.from(outcome.table);
      begun = outcome.number === 0;
      if (!begun) {
        left = 1 + below(8);
        file = [];
      }
    }
    left -= 1;
    choose(table);
    if (asked.kind === 17) shuffle();
    table = step(table);
    if (begun) {
      const { kind, seat, position, amount } = asked;
      wasm.discgauze_file_add(back, value(writer), kind, seat, position, amount, lend(order), BigInt(order.length));
      writer = written(gave(T.Written));
    }
    readings(table, call);
  }
  const some = accepted.slice(1, 22);
  console.log(`agree: ${calls} calls, ${some.reduce((a, b) => a + b, 0)} of them accepted (each kind at least ${Math.min(...some)} times), ${refused.size} different refusals, ${compared} structs, ${(total / 1e6).toFixed(0)} MB: the same`);
  if (Math.min(...some) === 0) throw new Error('a kind of call was never accepted: ' + some.join(' '));
}

try {
  main();
} catch (error) {
  console.error('agree: ' + error.message);
  process.exit(1);
}
