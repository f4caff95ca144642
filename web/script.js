// Scripts of calls, in the rows of crates/rehearsal/stdin: at 0 the letter, at 2 the seat, at 3 the position, at 4 the amount, at 21 the words.
//   o an order: at 4 the decks, at 21 the cards that it begins with, the other faces follow, rising; O opens with thirteen options of a digit at 2, the cut at 16, the
//   smallest stake at 20 and the largest at 28; S: what stands before it is preparation; M: the table that the page shows first.
(function (root) {
  'use strict';

  const letters = {
    f: 1, c: 2, b: 3, x: 4, s: 5, D: 6, i: 7, n: 8, d: 9, 2: 10, p: 11, u: 12, e: 13, 5: 14, C: 15, V: 16, L: 17, A: 18, B: 19, E: 20, F: 21,
  };

  // A card of two letters: rank and suit, T the ten, a to d the suits.
  function card(two) {
    const rank = 'A23456789TJQK'.indexOf(two[0].toUpperCase());
    const suit = 'abcd'.indexOf((two[1] || '').toLowerCase());
    return rank < 0 || suit < 0 ? 255 : suit * 13 + rank;
  }

  // The cards that a text names: numbers, or two letters each.
  function cards(text) {
    const t = text.trim();
    if (/^[\d\s,]*$/.test(t)) return (t.match(/\d+/g) || []).map((n) => Math.min(Number(n), 255));
    return (t.replace(/[\s,]/g, '').match(/..?/g) || []).map(card);
  }

  // The order of so many decks that begins with these cards.
  function begun(first, decks) {
    const order = first.slice();
    for (let face = 0; face < 52; face += 1) {
      for (let n = first.filter((c) => c === face).length; n < decks; n += 1) order.push(face);
    }
    return Uint8Array.from(order);
  }

  function options(row) {
    const digit = (at) => Number(row[at]);
    const number = (from, to) => Number(row.slice(from, to).trim() || 0);
    const names = ['seats', 'decks', 'first', 'later', 'hands', 'aces', 'double', 'limit', 'insurance', 'five', 'prize', 'device', 'decider'];
    return Object.assign(Object.fromEntries(names.map((name, i) => [name, digit(2 + i)])), {
      cut: number(16, 19), smallest: number(20, 27), largest: number(28, 35),
    });
  }

  // The opening, its calls with their words, how many of them are preparation, and after how many the page stops first.
  function read(text) {
    const script = { options: null, order: null, opened: '', calls: [], prepared: 0, moment: null };
    let order = begun([], 1);
    for (const row of text.split('\n')) {
      const letter = row[0];
      const words = row.slice(21).trim();
      if (letter === 'o') order = begun(cards(row.slice(21)), Number(row[4]));
      else if (letter === 'O') Object.assign(script, { options: options(row), order, opened: row.slice(36).trim() });
      else if (letter === 'S') script.prepared = script.calls.length;
      else if (letter === 'M') script.moment = script.calls.length;
      else if (letters[letter]) {
        const digit = (at) => Number((row[at] || '').trim() || 0);
        script.calls.push({ kind: letters[letter], seat: digit(2), position: digit(3), amount: BigInt(row.slice(4, 20).trim() || 0), order, words });
      }
    }
    if (script.moment === null) script.moment = script.calls.length;
    return script;
  }

  const Script = { read, cards, begun };
  if (typeof module !== 'undefined') module.exports = Script;
  else root.Script = Script;
})(typeof self !== 'undefined' ? self : this);
