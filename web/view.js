// The drawing: from one step of a session to the page, by the engine's reading functions alone. Nothing here keeps a figure or works one out.
(function (root) {
  'use strict';
  const W = root.Words;

  // ---- small helpers

  function el(tag, given, ...inside) {
    const node = document.createElement(tag);
    for (const [name, value] of Object.entries(given || {})) {
      if (value === null || value === undefined || value === false) continue;
      if (name === 'class') node.className = value;
      else if (name === 'style') node.style.cssText = value;
      else node.setAttribute(name, value === true ? '' : value);
    }
    node.append(...inside.flat(3).filter((n) => n !== null && n !== undefined && n !== false));
    return node;
  }
  const fill = (id, ...inside) => document.getElementById(id).replaceChildren(...inside.flat(3).filter(Boolean));
  const classes = (...names) => names.filter(Boolean).join(' ');
  const count = (n) => Array.from({ length: n }, (_, i) => i);
  const cardsOf = (hand) => hand.cards.slice(0, hand.count);

  function card(face, more) {
    const svg = document.createElementNS('http://www.w3.org/2000/svg', 'svg');
    svg.setAttribute('class', classes('card', more));
    svg.setAttribute('viewBox', '0 0 80 112');
    svg.setAttribute('role', 'img');
    svg.setAttribute('aria-label', face === 'back' ? 'a card face down' : W.cardName(face));
    svg.dataset.face = face;
    const use = document.createElementNS('http://www.w3.org/2000/svg', 'use');
    use.setAttribute('href', '#card-' + face);
    svg.append(use);
    return svg;
  }

  // A card as its index alone.
  function mini(face) {
    const suit = Math.floor(face / 13);
    const svg = document.createElementNS('http://www.w3.org/2000/svg', 'svg');
    svg.setAttribute('viewBox', '0 0 20 20');
    const use = document.createElementNS('http://www.w3.org/2000/svg', 'use');
    use.setAttribute('href', '#suit-' + suit);
    svg.append(use);
    return el('span', { class: classes('mini', (suit === 1 || suit === 2) && 'red'), title: W.cardName(face), 'data-face': face }, W.ranks[face % 13], svg);
  }

  // A chip of this amount, coloured by the largest value that fits into it.
  const values = [5000, 1000, 500, 100, 50, 20, 10, 5, 2, 1];
  const chipClass = (amount) => 'chip v' + (values.find((v) => BigInt(v) <= BigInt(amount)) || 1);
  const chip = (amount, title) => el('span', { class: chipClass(amount), title, style: `--long:${W.figure(amount).length}` }, W.figure(amount));

  // A touch field: lit where the engine would accept the call. A dark one can be touched too, and the engine says why not.
  function field(kind, seat, position, lit, label) {
    const name = W.calls[kind].name;
    return el(
      'button',
      {
        type: 'button', class: classes('field', lit ? 'lit' : 'dark'), 'data-kind': kind, 'data-seat': seat, 'data-position': position,
        title: name + ': ' + W.about[name], 'aria-disabled': lit ? null : 'true',
      },
      label || name
    );
  }

  // ---- everything that a step shows

  function read(e, step) {
    const shown = e.shownTable(step.table);
    const seats = count(shown.options.seats);
    const guests = seats.map((s) => [0, 1, 2].map((p) => e.shownSeat(step.table, s, p)));
    const closed = step.number === 0 && step.lines.length > 0;
    // A closed round lies on the table before it; its cards are discards now.
    const lying = closed ? step.before : step.table;
    const lain = seats.map((s) => [0, 1, 2].map((p) => (closed ? e.shownSeat(lying, s, p) : guests[s][p])));
    const hands = seats.map((s) => count(lain[s][0].hands).map((place) => [0, 1, 2].map((p) => e.shownHand(lying, s, p, place))));
    const accepts = (kind, amount, order) => e.stepped(step.table, kind, 0, 0, amount, order).answer.number === 0;
    return {
      step, shown, seats, guests, closed, lain, hands, options: shown.options,
      turn: e.shownTurn(step.table),
      screen: e.shownScreen(step.table),
      house: { fill: accepts(1, 1), credit: accepts(2, 1), deal: accepts(6, 0), close: accepts(15, 0), void: accepts(16, 0), load: accepts(17, 0, root.Script.begun([], shown.options.decks)) },
    };
  }

  // ---- the felt

  // Cards that lie over one another, the newest on top, seven in a column. `from`: those behind this number are new.
  function pile(cards, from) {
    const tall = Math.min(cards.length, 7);
    const step = tall > 3 ? Math.max(0.21, 0.3 - 0.02 * (tall - 3)) : 0.3;
    return el(
      'div',
      { class: 'pile', style: `--tall:${tall};--columns:${Math.ceil(cards.length / 7)};--step:${step}` },
      cards.map((face, i) => {
        const drawn = card(face, i >= from ? 'new' : '');
        drawn.style.setProperty('--row', i % 7);
        drawn.style.setProperty('--column', Math.floor(i / 7));
        return drawn;
      })
    );
  }

  function bank(r) {
    const { step, shown, closed } = r;
    const dealt = shown.bank.count > 0;
    const cards = closed ? cardsOf(step.answer.bank) : cardsOf(shown.bank);
    // The second card of a box lies face down from the deal on; the engine shows it to nobody before close.
    const hidden = dealt && shown.options.device === 2 ? ['back'] : [];
    const score = closed && step.answer.scores.count ? step.answer.scores.each[0] : null;
    return [
      el('div', { class: 'shoe', title: 'cards left' }, el('div', { class: 'deck', style: `--left:${shown.left / (52 * shown.options.decks || 1)}` }), el('b', {}, shown.left), el('span', {}, 'left in the ' + (W.devices[shown.options.device] || 'shoe'))),
      el(
        'div',
        { class: 'bank-hand' },
        el('h3', {}, 'Bank'),
        el('div', { class: 'row-of-cards', id: 'bank-cards' }, cards.concat(hidden).map((c) => card(c)), cards.length ? null : el('div', { class: 'no-card' })),
        score ? el('p', { class: 'score' }, (score.soft ? 'soft ' : '') + score.total) : null
      ),
      el('div', { class: 'shoe discards', title: 'discards' }, el('div', { class: 'deck', style: `--left:${shown.discards / (52 * shown.options.decks || 1)}` }), el('b', {}, shown.discards), el('span', {}, 'discards')),
    ];
  }

  const lineKinds = ['hand', 'insurance', 'pair', 'sevens', 'more', 'less'];

  function net(line, more) {
    return el('span', { class: classes('net', line.net > 0n ? 'gain' : line.net < 0n ? 'loss' : 'even', more) }, W.signed(line.net));
  }

  function hand(r, seat, place, earlier) {
    const { turn, step } = r;
    const [own] = r.hands[seat][place];
    const inTurn = !r.closed && turn.somebody && turn.seat === seat && turn.place === place;
    const lines = step.lines.filter((l) => l.seat === seat && l.kind === 0 && l.place === place);
    return el(
      'div',
      { class: classes('hand', inTurn && 'turn', own.ended && 'ended', r.closed && 'closed'), 'data-place': place },
      pile(cardsOf(own.hand), earlier),
      el('p', { class: classes('total', own.total > 21 && 'over') }, own.soft ? el('i', {}, 'soft') : null, own.total),
      el('p', { class: 'wager', title: 'wager of the seated guest' }, W.figure(own.wager)),
      el('p', { class: 'how' }, W.ended[own.ended] || ''),
      lines.map((l) => el('p', { class: 'pays' }, l.position ? el('small', {}, '+' + l.position) : null, net(l)))
    );
  }

  // One of the three betting places of a seat. While the engine would accept a stake there, it is the field for it.
  function spot(r, seat, position) {
    const g = r.lain[seat][position];
    const lit = r.screen.seats[seat].guests[position].stake;
    const tag = lit ? 'button' : 'div';
    const given = { class: classes('spot', 'p' + position, lit && 'lit', r.closed && 'closed'), title: W.guests[position] + (lit ? ': stake' : '') };
    if (lit) Object.assign(given, { type: 'button', 'data-kind': 5, 'data-seat': seat, 'data-position': position });
    const marks = [
      g.insurance ? ['ins', 'insurance', g.insurance] : null, g.sides[0] ? ['pair', 'side stake: pair', g.sides[0]] : null, g.sides[1] ? ['7·7', 'side stake: sevens', g.sides[1]] : null,
      g.sides[2] ? ['›13', 'side stake: more', g.sides[2]] : null, g.sides[3] ? ['‹13', 'side stake: less', g.sides[3]] : null, g.prizes ? ['★', 'prizes in this round', g.prizes] : null,
    ].filter(Boolean);
    return el(
      'div',
      { class: 'place p' + position },
      marks.map(([short, title, amount]) => el('div', { class: classes('mark', short === '★' && 'prize'), title }, short + ' ' + W.figure(amount))),
      el(tag, given, g.stake ? chip(g.stake, 'stake') : el('span', { class: 'empty' }, lit ? 'stake' : '')),
      el('div', { class: 'purse', title: 'purse' }, r.guests[seat][position].purse ? W.figure(r.guests[seat][position].purse) : '–')
    );
  }

  const roundKinds = [8, 9, 10, 11, 12, 13, 14, 7];

  // The lit fields of a dealt round, at the seat.
  function seatFields(r, seat) {
    const lit = roundKinds.map((kind) => {
      const name = W.calls[kind].name;
      const at = [0, 1, 2].filter((p) => r.screen.seats[seat].guests[p][name]);
      return at.map((p) => field(kind, seat, p, true, name + (at.length > 1 && p ? ' +' + p : '')));
    });
    return el('div', { class: 'seat-fields' }, lit);
  }

  // Cards of a seat with few of them are larger.
  const roomy = (hands) => (hands.length ? Math.min(1.35, seatWide(hands) / handsWide(hands)).toFixed(3) : 1);

  function seat(r, i, selected, earlier) {
    const many = r.seats.length;
    const off = many > 1 ? (i - (many - 1) / 2) / ((many - 1) / 2) : 0;
    const turn = !r.closed && r.turn.somebody && r.turn.seat === i;
    return el(
      'section',
      { class: classes('seat', turn && 'turn', i === selected && 'selected'), 'data-select': i, style: `--off:${off.toFixed(3)};--wide:${seatWide(r.hands[i])};--k:${roomy(r.hands[i])}`, 'aria-label': 'seat ' + i },
      el('div', { class: 'hands' }, r.hands[i].map((_, place) => hand(r, i, place, earlier(i, place)))),
      el('div', { class: 'spots' }, [0, 1, 2].map((p) => spot(r, i, p))),
      el('p', { class: 'plate' }, 'seat ' + i),
      seatFields(r, i)
    );
  }

  // How wide a seat is and its hands are: a hand is 70 wide, three betting places are 118.
  const handsWide = (hands) => hands.reduce((sum, [own]) => sum + 70 * (0.45 + 0.55 * Math.max(1, Math.ceil(own.hand.count / 7))), 0);
  const seatWide = (hands) => Math.max(118, handsWide(hands));

  // The seats as large as the felt has room for them.
  function fit(r) {
    const seats = document.getElementById('seats');
    const wide = r.hands.reduce((sum, hands) => sum + seatWide(hands), 0);
    const scale = (seats.clientWidth - 36 - 8 * r.seats.length) / Math.max(wide, 1);
    seats.style.setProperty('--u', Math.min(1.4, Math.max(0.3, scale)).toFixed(3));
  }

  // ---- the seat display

  // Fifteen fields: the purse and the stake, the decisions, the side stakes.
  const fifteen = [3, 4, 5, 7, 13, 8, 9, 10, 11, 12, 18, 19, 20, 21, 14];

  function guest(r, s, p) {
    const g = r.guests[s][p];
    const lights = r.screen.seats[s].guests[p];
    const decides = r.turn.somebody && r.turn.seat === s && r.turn.position === p;
    const pair = (name, value, more) => el('div', { class: classes('figure', !value && 'none', more) }, el('dt', {}, name), el('dd', { 'data-figure': name }, W.figure(value)));
    const wagers = r.closed ? [] : r.hands[s].map((h) => W.figure(h[p].wager));
    return el(
      'article',
      { class: classes('guest', decides && 'decides'), 'data-position': p },
      el('h3', {}, W.guests[p], decides ? el('em', {}, 'decides') : null, g.stake && wagers.length > 1 ? el('small', {}, 'wagers ' + wagers.join(' · ')) : null),
      el(
        'dl', {},
        pair('purse', g.purse, 'large'), pair('stake', g.stake), pair('insurance', g.insurance), pair('layout', g.layout), pair('prizes', g.prizes),
        ['pair', 'sevens', 'more', 'less'].map((name, k) => (g.sides[k] ? pair(name, g.sides[k], 'side') : null))
      ),
      el('div', { class: 'fields' }, fifteen.map((kind) => field(kind, s, p, lights[W.calls[kind].name])))
    );
  }

  function display(r, selected) {
    if (!r.seats.length) return [el('h2', {}, 'Seat'), el('p', { class: 'quiet' }, 'A broken table has no seats.')];
    return [
      el('div', { class: 'tabs' }, el('h2', {}, 'Seat'), r.seats.map((s) => el('button', { type: 'button', class: classes(s === selected && 'selected', r.turn.somebody && r.turn.seat === s && 'turn'), 'data-select': s }, s))),
      [0, 1, 2].map((p) => guest(r, selected, p)),
    ];
  }

  // ---- rows, chances, cashier's line

  function rows(r) {
    const { screen } = r;
    return [
      el('h2', {}, 'Dealer’s rows'),
      el(
        'ol', {},
        count(6).map((i) => {
          const row = screen.rows[i];
          if (i >= screen.shown) return el('li', { class: 'none' });
          return el(
            'li', { class: i === 0 && r.turn.somebody && 'turn' },
            el('span', {}, 'seat ' + row.seat + ' · hand ' + row.place),
            el('span', { class: classes('minis', row.hand.count > 8 && 'many') }, cardsOf(row.hand).map(mini)),
            el('b', {}, row.total)
          );
        })
      ),
      el('p', { class: 'beyond' }, 'hands beyond: ', el('b', { id: 'beyond' }, screen.beyond)),
    ];
  }

  const endings = ['natural', '17', '18', '19', '20', '21', 'bust', 'open'];

  // What the bank makes of its up card in at most six more cards, by the cards that nobody has seen.
  function chances(e, r) {
    const faces = e.facesLeft(r.step.table);
    if (faces.number !== 0) return [];
    let depth = 6;
    let found = e.chances(faces.up, faces.left, depth);
    while (found.number !== 0 && depth > 0) found = e.chances(faces.up, faces.left, --depth);
    const part = (n) => Number((n * 10000n) / found.all) / 100;
    const most = Math.max(...found.counts.map(part));
    return [
      el('h2', {}, 'What the bank makes of it'),
      el('div', { class: 'bars' }, found.counts.map((n, i) => el('div', { title: W.figure(n) + ' of ' + W.figure(found.all) + ' draws' }, el('i', { style: `height:${((100 * part(n)) / most).toFixed(1)}%` }), el('span', {}, endings[i])))),
    ];
  }

  function cashier(r) {
    const pair = (id, name, value) => el('div', { class: 'figure' }, el('dt', {}, name), el('dd', { id }, W.figure(value)));
    return el('dl', {}, pair('figure-tray', 'tray', r.shown.tray), pair('figure-layout', 'layout', r.shown.layout), pair('figure-purses', 'purses', r.shown.purses), pair('figure-left', 'cards left', r.shown.left), pair('figure-discards', 'discards', r.shown.discards));
  }

  function houseFields(r) {
    return ['deal', 'close', 'void', 'load', 'fill', 'credit'].map((name) => field(W.kindOf(name), 0, 0, r.house[name]));
  }

  function houseWords(o) {
    if (!o.seats) return 'no table';
    const aces = o.aces ? ', aces again' : '';
    return [
      `${o.seats} seats`, `${o.decks} ${o.decks === 1 ? 'deck' : 'decks'} in a ${W.devices[o.device]}`, `stakes ${W.figure(o.smallest)} to ${W.figure(o.largest)}`,
      `${o.hands} hands${aces}`, o.double === 2 ? 'double on 11' : null, o.five ? 'five cards' : null, o.prize ? 'prize' : null, o.limit ? 'limited loss' : null,
      o.decider === 2 ? 'the largest stake decides' : null,
    ].filter(Boolean).join(' · ');
  }

  // ---- the message, the lines, the trail

  function message(r, note) {
    const { step } = r;
    if (note) return [el('p', { class: classes('said', note.refused && 'refused') }, note.refused ? el('b', { class: 'number' }, note.number) : null, note.words)];
    const refused = step.number !== 0;
    const scores = step.answer ? step.answer.scores.each.slice(0, step.answer.scores.count) : [];
    return [
      el(
        'p', { class: classes('said', refused && 'refused') },
        el('b', { class: 'number', id: 'number' }, step.number), ' ', W.callWords(step.call), ' ',
        el('span', { class: 'why' }, refused ? 'refused: ' + W.refusal(step.number, step.call.kind) : 'accepted')
      ),
      el(
        'p', { class: 'aloud' }, step.words, scores.length && step.words ? ' — ' : '',
        scores.length ? el('span', { id: 'aloud' }, 'the dealer calls ' + scores.map((s) => (s.soft ? 'soft ' : '') + s.total).join(', ')) : null
      ),
    ];
  }

  // The pay lines that are no hand's: those stand at their cards.
  function lines(r) {
    const list = r.step.lines;
    if (!r.closed) return null;
    return el(
      'ol', { class: 'lines', title: 'pay lines of close' },
      list.map((l) => el('li', { 'data-line': `${l.seat} ${l.position} ${l.place} ${l.kind}` }, 'seat ' + l.seat + (l.position ? ' +' + l.position : '') + ' ' + (l.kind ? lineKinds[l.kind] : 'hand ' + l.place) + ' ', net(l)))
    );
  }

  function trail(session) {
    const from = Math.max(0, session.at - 200);
    return session.trail.slice(from, session.at + 60).map((step, i) =>
      el(
        'li', { class: classes(from + i === session.at && 'at', step.number !== 0 && 'refused') },
        el('button', { type: 'button', 'data-step': from + i, title: step.words }, el('span', {}, W.callWords(step.call, true)), step.number ? el('b', {}, step.number) : null)
      )
    );
  }

  // ---- all of it

  // Draws a step. `ui` has what is no figure: the selected seat, the note of a file that was refused, the step that was drawn before.
  function draw(e, session, ui) {
    const step = session.step;
    const r = read(e, step);
    if (r.turn.somebody && ui.follow) ui.selected = r.turn.seat;
    else if (ui.follow && step.call.kind && W.calls[step.call.kind].seat) ui.selected = step.call.seat;
    if (ui.selected >= r.seats.length) ui.selected = 0;

    // A card is new where the table before had fewer cards in that place.
    const earlier = (s, place) => {
      if (!step.before || r.closed || !ui.moved) return 99;
      const before = e.shownHand(step.before, s, 0, place);
      return before.hand.count;
    };
    fill('house', houseWords(r.options));
    fill('message', message(r, ui.note));
    fill('bank', bank(r));
    fit(r);
    fill('seats', r.seats.map((s) => seat(r, s, ui.selected, earlier)), r.seats.length ? null : el('p', { class: 'broken' }, 'This table is broken: nothing is lit, no hand is shown.'));
    document.getElementById('bank').append(...[lines(r)].filter(Boolean));
    fill('display', display(r, ui.selected));
    fill('rows', rows(r));
    fill('chances', chances(e, r));
    fill('cashier', cashier(r));
    fill('house-fields', houseFields(r));
    fill('trail', trail(session));
    const source = session.source;
    fill('place', 'call ' + step.count + (source && source.total !== null ? ' of ' + source.total : ''));
    const set = (id, off) => (document.getElementById(id).disabled = off);
    set('first', session.at === 0);
    set('back', session.at === 0);
    set('next', session.isAtEnd);
    set('last', session.isAtEnd);
    set('save', !step.writer);
    // The call that is shown stays in sight of its list; the page itself does not move.
    const list = document.getElementById('trail');
    const here = list.querySelector('.at');
    if (here) list.scrollTop = Math.max(0, here.offsetTop - list.offsetTop - list.clientHeight + 2 * here.offsetHeight);
  }

  root.View = { draw, el, fill, values, chipClass };
})(self);
