// A session on the page: the trail of tables that the engine gave, one for each call, and the place in it that is shown. The page keeps nothing else. Where a file or a
// script is behind the trail, its next call is played when one steps beyond the trail's end; a call by touch cuts off what lay behind and goes on from there.
(function (root) {
  'use strict';

  // So many steps can be gone back.
  const KEPT = 20000;

  class Session {
    constructor(engine) {
      this.engine = engine;
      this.trail = [];
      this.at = 0;
      this.source = null;
    }

    get step() {
      return this.trail[this.at];
    }

    // A first table. A refused opening gives the broken table, and no file can be written of it.
    open(options, order, words) {
      const e = this.engine;
      const opened = e.opened(options, order);
      const begun = e.fileBegin(options, order);
      this.begin(opened, begun, words);
      return opened.number;
    }

    begin(opened, begun, words) {
      this.trail = [
        {
          count: 0, call: { open: true }, words: words || '', number: opened.number, table: opened.table, before: null, answer: null, lines: [],
          writer: begun.number === 0 ? begun.writer : null, blocks: linked(null, begun),
        },
      ];
      this.at = 0;
      this.source = null;
    }

    // One call on the table that is shown; the number is the engine's.
    play(call) {
      const e = this.engine;
      const from = this.step;
      const reply = e.stepped(from.table, call.kind, call.seat, call.position, call.amount, call.order);
      const step = {
        count: from.count + 1, call, words: call.words || '', number: reply.answer.number, table: reply.table, before: from.table, answer: reply.answer,
        lines: reply.lines, writer: from.writer, blocks: from.blocks,
      };
      if (step.number === 0 && from.writer) {
        const written = e.fileAdd(from.writer, call.kind, call.seat, call.position, call.amount, call.order);
        step.writer = written.writer;
        step.blocks = linked(from.blocks, written);
      }
      this.trail.length = this.at + 1;
      this.trail.push(step);
      if (this.trail.length > KEPT) this.trail.shift();
      this.at = this.trail.length - 1;
      return step;
    }

    // A call by touch: the script or file behind the trail ends here.
    touch(call) {
      this.source = null;
      return this.play(call);
    }

    // A script: all its calls, and at first the table that it wants shown.
    openScript(script) {
      this.open(script.options, script.order, script.opened);
      let next = 0;
      this.source = { total: script.calls.length, next: () => script.calls[next++] || null };
      while (this.step.count < script.moment && this.forward());
    }

    // A session file, which the engine checks whole. A refused one leaves the session as it was, and the file behind it lent.
    openFile(file) {
      const e = this.engine;
      const number = e.lendFile(file);
      if (number !== 0) {
        if (this.source && this.source.file) e.lendFile(this.source.file);
        return number;
      }
      const opened = e.fileOpened();
      this.begin(opened, e.fileBegun(), 'the first table of the file');
      let place = e.fileFirst();
      this.source = {
        total: null,
        file,
        next: () => {
          const call = e.fileCall(place);
          if (!call.found) return null;
          place = call.behind;
          return { kind: call.kind, seat: call.seat, position: call.position, amount: call.amount, order: e.filePart(call.order, call.cards) };
        },
      };
      return 0;
    }

    // Whether no call follows that is known of.
    get isAtEnd() {
      return this.at === this.trail.length - 1 && (!this.source || this.source.total === this.step.count);
    }

    // One step on; false at the end.
    forward() {
      if (this.at < this.trail.length - 1) {
        this.at += 1;
        return true;
      }
      const call = this.isAtEnd ? null : this.source.next();
      if (!call) {
        if (this.source) this.source.total = this.step.count;
        return false;
      }
      this.play(call);
      return true;
    }

    back() {
      if (this.at === 0) return false;
      this.at -= 1;
      return true;
    }

    toEnd() {
      while (this.forward());
    }

    // The file of the session as far as it is shown: the blocks that the writer gave, and its last one.
    file() {
      const step = this.step;
      if (!step.writer) return null;
      const blocks = [];
      for (let link = step.blocks; link; link = link.before) blocks.unshift(link.block);
      const last = this.engine.fileEnd(step.writer);
      if (last.blocks) blocks.push(last.block);
      const file = new Uint8Array(512 * blocks.length);
      blocks.forEach((block, i) => file.set(block, 512 * i));
      return file;
    }
  }

  // The blocks so far with those that the writer just gave.
  function linked(before, written) {
    const given = [written.first, written.second].slice(0, written.blocks);
    return given.reduce((link, block) => ({ before: link, block }), before);
  }

  if (typeof module !== 'undefined') module.exports = Session;
  else root.Session = Session;
})(typeof self !== 'undefined' ? self : this);
