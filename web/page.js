// What a touch does: it makes a call, steps through a session, or reads and writes a session file.
(async function () {
  'use strict';
  const W = Words;
  const { el, fill } = View;
  const get = (id) => document.getElementById(id);

  get('drawings').innerHTML = Cards.drawings();
  const engine = await Engine.start(Uint8Array.from(atob(DiscgauzeWasm), (c) => c.charCodeAt(0)));
  const session = new Session(engine);
  const ui = { selected: 0, follow: true, moved: false, note: null };

  function draw(change) {
    Object.assign(ui, { follow: true, moved: false, note: null }, change);
    View.draw(engine, session, ui);
  }

  // ---- amounts

  const amount = () => {
    const text = get('amount').value.replace(/[\s,_]/g, '');
    return /^\d+$/.test(text) ? BigInt(text) : 0n;
  };
  const setAmount = (n) => (get('amount').value = W.figure(n));
  fill('chips', View.values.slice().reverse().map((v) => el('button', { type: 'button', class: View.chipClass(v), 'data-chip': v, title: W.figure(v) + ' more', 'aria-label': W.figure(v) + ' more' }, v < 1000 ? v : v / 1000 + 'k')));

  // ---- calls

  function call(kind, seat, position, order) {
    const of = W.calls[kind];
    const had = session.at === session.trail.length - 1 ? null : session.source;
    session.touch({ kind, seat: of.seat ? seat : 0, position: of.seat ? position : 0, amount: of.amount ? amount() : 0n, order: order || new Uint8Array(0) });
    draw({ moved: !had });
  }

  function forward() {
    const moved = session.forward();
    draw({ moved });
  }

  // ---- orders of cards

  // A shuffled order, by the browser's randomness.
  function shuffled(decks) {
    const order = Script.begun([], decks);
    const dice = crypto.getRandomValues(new Uint32Array(order.length));
    for (let i = order.length - 1; i > 0; i -= 1) {
      const k = dice[i] % (i + 1);
      [order[i], order[k]] = [order[k], order[i]];
    }
    return order;
  }

  function orderOf(form, decks) {
    if (form.elements.order.value === 'shuffled') return shuffled(decks);
    return Script.begun(Script.cards(form.elements.cards.value), decks);
  }

  // ---- the house of a new table

  const choices = {
    seats: [6, 9], decks: [1, 8], first: { 1: 'one card', 2: 'one per deck' }, later: { 0: 'none', 1: 'one at each later deal', 2: 'and one before the bank’s second' },
    hands: [2, 4], aces: { 0: 'not again', 1: 'again' }, double: { 1: 'any two cards', 2: 'only 11' }, limit: { 0: 'whole', 1: 'limited' },
    insurance: { 1: 'half the stake', 2: 'half to whole' }, five: { 0: 'off', 1: 'on' }, prize: { 0: 'off', 1: 'on' }, device: { 1: 'shoe', 2: 'metal box', 3: 'shuffling machine' },
    decider: { 1: 'the seated guest', 2: 'the largest stake' }, cut: null, smallest: null, largest: null,
  };
  const titles = {
    seats: 'seats', decks: 'decks', first: 'first burn', later: 'later burn', hands: 'hands a seat', aces: 'split aces', double: 'double', limit: 'loss on a bank natural',
    insurance: 'insurance', five: 'five cards', prize: 'special prize', device: 'device', decider: 'who decides', cut: 'behind the cut', smallest: 'smallest stake', largest: 'largest stake',
  };
  const plain = { seats: 6, decks: 1, first: 1, later: 0, hands: 4, aces: 0, double: 1, limit: 0, insurance: 1, five: 0, prize: 1, device: 1, decider: 1, cut: 0, smallest: 2, largest: 100 };
  const presets = {
    'Six seats, one deck': { options: plain },
    'Nine seats, eight decks': { options: { ...plain, seats: 9, decks: 8, cut: 60, smallest: 20, largest: 5000 } },
    'Metal box': { options: { ...plain, seats: 7, device: 2, largest: 1000 } },
    'Shuffling machine': { options: { ...plain, seats: 7, decks: 6, device: 3, later: 1, five: 1, aces: 1, decider: 2, largest: 1000 } },
    'The marked session': { options: plain, cards: '51 6 5 19 32 9 45 22 3' },
  };

  fill('presets', Object.keys(presets).map((name) => el('button', { type: 'button', 'data-preset': name }, name)));
  fill(
    'options',
    Object.entries(choices).map(([name, of]) => {
      if (of === null) return el('label', {}, titles[name], el('input', { name, inputmode: 'numeric', size: 7 }));
      const list = Array.isArray(of) ? Array.from({ length: of[1] - of[0] + 1 }, (_, i) => [of[0] + i, of[0] + i]) : Object.entries(of);
      return el('label', {}, titles[name], el('select', { name }, list.map(([value, words]) => el('option', { value }, words))));
    })
  );

  const openingForm = get('opening').querySelector('form');
  function usePreset(chosen) {
    const of = presets[chosen];
    document.querySelectorAll('#presets button').forEach((b) => b.classList.toggle('at', b.dataset.preset === chosen));
    for (const [name, value] of Object.entries(of.options)) openingForm.elements[name].value = value;
    openingForm.elements.order.value = of.cards ? 'given' : 'shuffled';
    openingForm.elements.cards.value = of.cards || '';
    get('opening-refused').textContent = '';
  }

  function openTable() {
    const limit = (name) => Math.min(Number(openingForm.elements[name].value) || 0, name === 'cut' ? 65535 : 4294967295);
    const options = Object.fromEntries(Object.keys(choices).map((name) => [name, limit(name)]));
    const order = orderOf(openingForm, options.decks);
    const number = engine.opened(options, order).number;
    if (number !== 0) {
      get('opening-refused').textContent = number + ' ' + W.refusal(number);
      return;
    }
    session.open(options, order, 'a new table');
    get('opening').close();
    mark(null);
    draw();
  }

  // ---- the gallery

  fill('gallery', Gallery.map((hand, i) => el('li', {}, el('button', { type: 'button', 'data-hand': i, title: hand.about }, el('b', {}, hand.name), el('span', {}, hand.about)))));

  // Which of the rehearsed hands is on the page; none behind a call by touch, a new table or a file.
  function mark(i) {
    document.querySelectorAll('#gallery button').forEach((b) => b.classList.toggle('at', b.dataset.hand === String(i)));
  }

  function rehearse(i) {
    session.openScript(Script.read(Gallery[i].script));
    mark(i);
    draw({ moved: false });
  }

  // ---- session files

  async function openFile(file) {
    if (!file) return;
    const bytes = new Uint8Array(await file.arrayBuffer());
    const number = session.openFile(bytes);
    if (number === 0) {
      mark(null);
      draw();
      return;
    }
    draw({ note: { refused: true, number, words: ` ${file.name} is refused: ${W.refusal(number)}` } });
  }

  function save() {
    const file = session.file();
    if (!file) return;
    const link = el('a', { href: URL.createObjectURL(new Blob([file], { type: 'application/octet-stream' })), download: 'session.discgauze' });
    document.body.append(link);
    link.click();
    link.remove();
    setTimeout(() => URL.revokeObjectURL(link.href), 10000);
  }

  // ---- touches

  document.addEventListener('click', (event) => {
    const at = (name) => event.target.closest(`[data-${name}]`);
    const field = at('kind');
    if (field) {
      const { kind, seat, position } = field.dataset;
      if (Number(kind) === 17) return get('loading').showModal();
      mark(null);
      return call(Number(kind), Number(seat), Number(position));
    }
    const chip = at('chip');
    if (chip) return setAmount(amount() + BigInt(chip.dataset.chip));
    const hand = at('hand');
    if (hand) return rehearse(Number(hand.dataset.hand));
    const step = at('step');
    if (step) {
      session.at = Number(step.dataset.step);
      return draw();
    }
    const select = at('select');
    if (select) {
      ui.selected = Number(select.dataset.select);
      return draw({ follow: false, note: ui.note });
    }
    const preset = at('preset');
    if (preset) return usePreset(preset.dataset.preset);
    if (event.target.classList.contains('cancel')) return event.target.closest('dialog').close();
    return undefined;
  });

  const on = (id, name, does) => get(id).addEventListener(name, does);
  on('first', 'click', () => { session.at = 0; draw(); });
  on('back', 'click', () => { session.back(); draw(); });
  on('next', 'click', forward);
  on('last', 'click', () => { session.toEnd(); draw(); });
  on('clear', 'click', () => setAmount(0));
  on('save', 'click', save);
  on('new', 'click', () => { usePreset(Object.keys(presets)[0]); get('opening').showModal(); });
  on('open', 'click', openTable);
  on('load', 'click', () => {
    const order = orderOf(get('loading').querySelector('form'), engine.shownTable(session.step.table).options.decks);
    get('loading').close();
    mark(null);
    call(17, 0, 0, order);
  });
  on('file', 'change', (event) => { openFile(event.target.files[0]); event.target.value = ''; });

  window.addEventListener('resize', () => draw({ follow: false, note: ui.note }));

  document.addEventListener('keydown', (event) => {
    if (event.target.closest('input, textarea, select, dialog')) return;
    if (event.key === 'ArrowRight') forward();
    if (event.key === 'ArrowLeft' && session.back()) draw();
  });

  // A file over the page, and let go there.
  let over = 0;
  const dropping = (on_) => document.body.classList.toggle('dropping', on_);
  document.addEventListener('dragenter', (event) => { event.preventDefault(); over += 1; dropping(true); });
  document.addEventListener('dragleave', () => { over -= 1; dropping(over > 0); });
  document.addEventListener('dragover', (event) => event.preventDefault());
  document.addEventListener('drop', (event) => {
    event.preventDefault();
    over = 0;
    dropping(false);
    openFile(event.dataTransfer.files[0]);
  });

  rehearse(0);
  document.body.classList.add('ready');
})();
