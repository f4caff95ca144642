// The engine as the page sees it: the functions of include/discgauze.h over WebAssembly. A table and a writer are bytes that the engine gave and that only it
// reads; everything else comes back as plain values. Structs lie as C lays them out; web/test/agree compares every size and offset with the native header's.
(function (root) {
  'use strict';

  const Lower = typeof module !== 'undefined' ? require('./lower.js') : root.Lower;

  // ---- types: how many bytes, at which alignment, and how they are read

  const whole = (size, read) => ({ size, align: size, read });
  const u8 = whole(1, (v, at) => v.getUint8(at));
  const bool = whole(1, (v, at) => v.getUint8(at) !== 0);
  const u16 = whole(2, (v, at) => v.getUint16(at, true));
  const u32 = whole(4, (v, at) => v.getUint32(at, true));
  const u64 = whole(8, (v, at) => v.getBigUint64(at, true));
  const i64 = whole(8, (v, at) => v.getBigInt64(at, true));
  // A count or a place: 64 bits, and never above what a number holds exactly.
  const usize = whole(8, (v, at) => Number(v.getBigUint64(at, true)));

  const array = (of, many) => ({
    size: of.size * many,
    align: of.align,
    of,
    many,
    read: (v, at) => Array.from({ length: many }, (_, i) => of.read(v, at + i * of.size)),
  });

  // Bytes that are handed on as they are.
  const bytes = (many) => ({
    size: many,
    align: 1,
    read: (v, at) => new Uint8Array(v.buffer, at, many).slice(),
  });

  // A struct by C's rules. An opaque one is read as its bytes.
  function struct(fields, opaque) {
    const at = {};
    let size = 0;
    let align = 1;
    for (const [name, type] of Object.entries(fields)) {
      size = Math.ceil(size / type.align) * type.align;
      at[name] = size;
      size += type.size;
      align = Math.max(align, type.align);
    }
    size = Math.ceil(size / align) * align;
    const read = opaque
      ? bytes(size).read
      : (v, from) => Object.fromEntries(Object.entries(fields).map(([name, type]) => [name, type.read(v, from + at[name])]));
    return { size, align, fields, at, read };
  }

  const T = {};
  T.Options = struct({
    seats: u8, decks: u8, first: u8, later: u8, hands: u8, aces: u8, double: u8, limit: u8, insurance: u8, five: u8, prize: u8,
    device: u8, decider: u8, cut: u16, smallest: u32, largest: u32,
  });
  T.Hand = struct({ cards: array(u8, 20), count: u8 });
  T.HandScore = struct({ total: u8, soft: bool });
  T.Scores = struct({ each: array(T.HandScore, 9), count: usize });
  T.Money = struct({ purse: u64, stake: u32, insurance: u32, sides: array(u32, 4) });
  T.SeatHand = struct({ hand: T.Hand, origin: u8, ended: u8 });
  T.SeatHands = struct({ places: array(T.SeatHand, 4), many: u8 });
  T.Seat = struct({ money: T.Money, others: array(T.Money, 2), hands: T.SeatHands, first: array(u8, 3) });
  T.Shoe = struct({ order: array(u8, 416), drawn: usize, discards: array(u8, 416), discarded: usize, begun: u8 });
  T.Table = struct({ options: T.Options, tray: u64, seats: array(T.Seat, 9), bank: T.Hand, shoe: T.Shoe }, true);
  T.Outcome = struct({ number: u8, table: T.Table });
  T.Answer = struct({ number: u8, bank: T.Hand, lines: usize, scores: T.Scores });
  T.Reply = struct({ answer: T.Answer, table: T.Table });
  T.TableShown = struct({ options: T.Options, tray: u64, layout: u64, purses: u64, left: usize, discards: usize, bank: T.Hand });
  T.TurnShown = struct({ somebody: bool, seat: usize, place: usize, position: u8 });
  T.SeatShown = struct({ purse: u64, stake: u32, insurance: u32, sides: array(u32, 4), layout: u64, prizes: u64, hands: usize });
  T.HandShown = struct({ hand: T.Hand, total: u8, soft: bool, wager: u64, origin: u8, ended: u8 });
  T.Lights = struct({
    buy: bool, cash: bool, stake: bool, insure: bool, stand: bool, draw: bool, double: bool, split: bool, surrender: bool, even: bool, five: bool,
    pair: bool, sevens: bool, more: bool, less: bool,
  });
  T.SeatLights = struct({ guests: array(T.Lights, 3) });
  T.Row = struct({ seat: usize, place: usize, hand: T.Hand, total: u8 });
  T.Screen = struct({ seats: array(T.SeatLights, 9), rows: array(T.Row, 6), shown: usize, beyond: usize });
  T.FileCall = struct({ found: bool, kind: u8, seat: u8, position: u8, amount: u64, order: usize, cards: usize, behind: usize });
  T.Writer = struct({ options: T.Options, many: u8, bytes: array(u8, 500) }, true);
  T.Written = struct({ number: u8, blocks: u8, first: bytes(512), second: bytes(512), writer: T.Writer });
  T.Last = struct({ blocks: u8, block: bytes(512) });
  T.BankChances = struct({ number: u8, all: u64, counts: array(u64, 8) });
  T.FacesLeft = struct({ number: u8, up: u8, left: bytes(52) });
  T.WaysCount = struct({ number: u8, count: usize });
  T.Way = struct({ number: u8, found: bool, length: usize, decisions: array(u8, 8), sum: i64 });

  const LINES = 243;

  // ---- the engine

  // From the bytes of the module. The functions take a table as the bytes that an earlier one gave.
  async function start(module) {
    return over(await Lower.start(module));
  }

  function over(wasm) {
    const memory = wasm.memory;
    const room = { at: Math.ceil(wasm.__heap_base.value / 16) * 16 };
    const take = (size) => {
      const at = room.at;
      room.at += Math.ceil(size / 16) * 16;
      const short = room.at - memory.buffer.byteLength;
      if (short > 0) memory.grow(Math.ceil(short / 65536));
      return at;
    };

    // One place for a struct that goes in by value (the callee may use it as its own, so it is a copy), one for the struct that comes back, one for bytes that are
    // lent, and the two arrays of the pay lines. A longer file gets a longer place.
    const given = take(Math.max(T.Table.size, T.Writer.size));
    const back = take(Math.max(T.Reply.size, T.Written.size, T.Screen.size));
    const names = take(4 * LINES);
    const nets = take(8 * LINES);
    const lent = { at: take(512), size: 512 };
    const filed = { at: take(1024), size: 1024, length: 0 };

    const put = (at, list) => new Uint8Array(memory.buffer).set(list, at);
    const lend = (list) => {
      if (list.length > lent.size) {
        lent.at = take(list.length);
        lent.size = list.length;
      }
      put(lent.at, list);
      return BigInt(list.length);
    };
    const read = (type) => type.read(new DataView(memory.buffer), back);
    const value = (list) => {
      put(given, list);
      return given;
    };

    // The bytes of house options.
    const optionBytes = (o) => {
      const list = new Uint8Array(T.Options.size);
      const v = new DataView(list.buffer);
      for (const [name, type] of Object.entries(T.Options.fields)) {
        if (type.size === 1) v.setUint8(T.Options.at[name], o[name]);
        if (type.size === 2) v.setUint16(T.Options.at[name], o[name], true);
        if (type.size === 4) v.setUint32(T.Options.at[name], o[name], true);
      }
      return list;
    };

    // The first pay lines of the two arrays, with their names taken apart.
    const payLines = (many) => {
      const v = new DataView(memory.buffer);
      return Array.from({ length: many }, (_, i) => {
        const name = v.getUint32(names + 4 * i, true);
        return {
          seat: wasm.discgauze_line_seat(name) & 255,
          position: wasm.discgauze_line_position(name) & 255,
          place: wasm.discgauze_line_place(name) & 255,
          kind: wasm.discgauze_line_kind(name) & 255,
          net: v.getBigInt64(nets + 8 * i, true),
        };
      });
    };

    const call = {
      opened(options, order) {
        const n = lend(order);
        wasm.discgauze_opened(back, value(optionBytes(options)), lent.at, n);
        return read(T.Outcome);
      },
      stepped(table, kind, seat, position, amount, order) {
        const n = lend(order || []);
        wasm.discgauze_stepped(back, value(table), kind, seat, position, BigInt.asUintN(64, BigInt(amount)), lent.at, n, names, nets);
        const reply = read(T.Reply);
        reply.lines = payLines(reply.answer.lines);
        return reply;
      },
      broken: (table) => (wasm.discgauze_broken(value(table)) & 1) === 1,
      shownTable(table) {
        wasm.discgauze_shown_table(back, value(table));
        return read(T.TableShown);
      },
      shownTurn(table) {
        wasm.discgauze_shown_turn(back, value(table));
        return read(T.TurnShown);
      },
      shownSeat(table, seat, position) {
        wasm.discgauze_shown_seat(back, value(table), seat, position);
        return read(T.SeatShown);
      },
      shownHand(table, seat, position, place) {
        wasm.discgauze_shown_hand(back, value(table), seat, position, BigInt(place));
        return read(T.HandShown);
      },
      shownScreen(table) {
        wasm.discgauze_shown_screen(back, value(table));
        return read(T.Screen);
      },
      // A file is lent once and read from there until the next one is.
      lendFile(file) {
        if (file.length > filed.size) Object.assign(filed, { at: take(file.length), size: file.length });
        filed.length = file.length;
        put(filed.at, file);
        return wasm.discgauze_file_number(filed.at, BigInt(filed.length)) & 255;
      },
      fileFirst: () => Number(wasm.discgauze_file_first(filed.at, BigInt(filed.length))),
      fileOptions() {
        wasm.discgauze_file_options(back, filed.at, BigInt(filed.length));
        return read(T.Options);
      },
      fileOpened() {
        wasm.discgauze_file_opened(back, filed.at, BigInt(filed.length));
        return read(T.Outcome);
      },
      fileCall(at) {
        wasm.discgauze_file_call(back, filed.at, BigInt(filed.length), BigInt(at));
        return read(T.FileCall);
      },
      // The bytes of an order that the file hands out, by the place and the number of cards that the engine gave beside a load.
      filePart: (at, many) => new Uint8Array(memory.buffer, filed.at + at, many).slice(),
      // A writer that begins as the lent file does: its first order stands at byte 32 of its first block (request 2.9).
      fileBegun() {
        const options = call.fileOptions();
        return call.fileBegin(options, call.filePart(32, 52 * options.decks));
      },
      fileBegin(options, order) {
        const n = lend(order);
        wasm.discgauze_file_begin(back, value(optionBytes(options)), lent.at, n);
        return read(T.Written);
      },
      fileAdd(writer, kind, seat, position, amount, order) {
        const n = lend(order || []);
        wasm.discgauze_file_add(back, value(writer), kind, seat, position, BigInt.asUintN(64, BigInt(amount)), lent.at, n);
        return read(T.Written);
      },
      fileEnd(writer) {
        wasm.discgauze_file_end(back, value(writer));
        return read(T.Last);
      },
      facesLeft(table) {
        wasm.discgauze_faces_left(back, value(table));
        return read(T.FacesLeft);
      },
      chances(up, left, depth) {
        const n = lend(left);
        wasm.discgauze_chances(back, up, lent.at, n, depth);
        return read(T.BankChances);
      },
      waysCount(table) {
        wasm.discgauze_ways_count(back, value(table));
        return read(T.WaysCount);
      },
      wayAt(table, place) {
        wasm.discgauze_way_at(back, value(table), BigInt(place));
        return read(T.Way);
      },
    };
    return Object.assign(call, { wasm });
  }

  const Engine = { types: T, LINES, start, over };
  if (typeof module !== 'undefined') module.exports = Engine;
  else root.Engine = Engine;
})(typeof self !== 'undefined' ? self : this);
