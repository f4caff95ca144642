// Words for what the engine says in numbers: the calls, the refusals, cards and amounts.
(function (root) {
  'use strict';

  // The kinds of calls, by the numbers of the session file. `seat`: it names a guest; `amount`: it names an amount.
  const calls = [null].concat(
    [
      ['fill', false, true], ['credit', false, true], ['buy', true, true], ['cash', true, true], ['stake', true, true], ['deal', false, false],
      ['insure', true, true], ['stand', true, false], ['draw', true, false], ['double', true, false], ['split', true, false],
      ['surrender', true, false], ['even', true, false], ['five', true, false], ['close', false, false], ['void', false, false],
      ['load', false, false], ['pair', true, true], ['sevens', true, true], ['more', true, true], ['less', true, true],
    ].map(([name, seat, amount]) => ({ name, seat, amount }))
  );
  const kindOf = (name) => calls.findIndex((c) => c && c.name === name);

  // What a field says in full.
  const about = {
    buy: 'the purse up', cash: 'the purse down', stake: 'from the purse to the layout', insure: 'against an ace of the bank',
    stand: 'no more cards', draw: 'one card', double: 'the stake again, one card, the hand ends', split: 'a pair becomes two hands',
    surrender: 'half the stake is lost, the hand ends', even: 'a natural takes the stake at once', five: 'five cards take half the stake',
    pair: 'side stake: the first two cards are a pair, 11 to 1', sevens: 'side stake: the first two cards are sevens, 50 to 5000 to 1',
    more: 'side stake: the first two cards come to more than 13, 1 to 1', less: 'side stake: the first two cards come to less than 13, 1 to 1',
    fill: 'the tray up', credit: 'the tray down', deal: 'cards to every staked seat and to the bank', close: 'the bank draws, all is paid',
    void: 'a misdeal: everyone gets back what was laid and returns prizes', load: 'a new order of cards',
  };

  const numbers = {
    0: 'accepted',
    1: 'the table is broken',
    2: 'an option is outside its range',
    3: 'the order of cards has a wrong length, card or count',
    4: 'a round is dealt',
    5: 'no round is dealt',
    6: 'nobody has staked',
    7: 'a hand waits',
    8: 'there is no such seat',
    9: 'that has been laid already',
    10: 'no stake in this round',
    11: 'it is not that seat’s turn',
    12: 'too late, or the hand does not wait',
    13: 'barred by the rules',
    14: 'the amount is 0 or outside what is permitted',
    15: 'the purse is below what is asked',
    16: 'the tray is too low',
    17: 'the shoe allows no deal',
    18: 'fewer cards are left than the call draws',
    19: 'no pair',
    20: 'the seat has all its hands',
    21: 'there is no such side stake',
    22: 'there is no such position',
    23: 'another guest decides for this seat',
    24: 'the file is empty, or its length is no multiple of 512',
    25: 'a block’s check is wrong: a byte was altered',
    26: 'the file’s content is against its rules',
    27: 'the depth is over 6 or over the cards left',
    28: 'the position or the card is taken',
    29: 'the card is not here',
    255: 'unknown kind of call',
  };

  // The same where the call says more.
  const closer = {
    stake: { 9: 'this guest has staked already', 10: 'the seated guest stakes first', 14: 'a stake is even and within the house’s limits' },
    insure: { 9: 'this guest is insured already', 12: 'too late: a decision was taken', 13: 'the up card is no ace', 14: 'an insurance is half the stake, or what the house permits' },
    surrender: { 12: 'too late, or the hand does not wait', 13: 'no surrender against an ace' },
    deal: { 16: 'the tray does not cover the stakes', 17: 'a load is due, or too few cards are left before the cut' },
    credit: { 16: 'the tray is below that credit' },
    close: { 18: 'the shoe ends before the bank has 17: only void ends the round' },
    side: { 9: 'this kind is laid already', 10: 'a side stake needs a stake', 14: 'a side stake is 1 to 100,000' },
    money: { 14: 'the amount is 0, or the money would pass 10^15' },
  };

  function refusal(number, kind) {
    const call = calls[kind];
    const name = !call ? '' : kind >= 18 ? 'side' : ['fill', 'buy'].includes(call.name) ? 'money' : call.name;
    return (closer[name] && closer[name][number]) || numbers[number] || 'unknown number';
  }

  // Guests of a seat, by position.
  const guests = ['seated guest', 'second guest', 'third guest'];

  // A whole number with its thousands apart.
  const figure = (n) => String(n).replace(/\B(?=(\d{3})+$)/g, ',');
  const signed = (n) => (n > 0n ? '+' : n < 0n ? '−' : '±') + figure(n < 0n ? -n : n);

  // A card is suit × 13 + rank. The papers number the suits; the page draws them as spades, hearts, diamonds and clubs.
  const ranks = ['A', '2', '3', '4', '5', '6', '7', '8', '9', '10', 'J', 'Q', 'K'];
  const suits = ['spades', 'hearts', 'diamonds', 'clubs'];
  const cardName = (card) => ranks[card % 13] + ' of ' + suits[Math.floor(card / 13)];

  const ended = ['', 'stands', 'doubled', 'surrendered', 'even', 'five cards'];
  const devices = ['', 'shoe', 'box', 'machine'];

  // A call in words, as "split · seat 2"; the other guests of a seat by name, or short as +1 and +2.
  function callWords(call, short) {
    if (call.open) return 'open';
    const of = calls[call.kind];
    if (!of) return 'call ' + call.kind;
    const who = of.seat ? ' · seat ' + call.seat + (call.position ? ' ' + (short ? '+' + call.position : guests[call.position] || 'position ' + call.position) : '') : '';
    return of.name + (of.amount ? ' ' + figure(call.amount) : '') + who;
  }

  const Words = { calls, kindOf, about, numbers, refusal, guests, figure, signed, ranks, suits, cardName, ended, devices, callWords };
  if (typeof module !== 'undefined') module.exports = Words;
  else root.Words = Words;
})(typeof self !== 'undefined' ? self : this);
