// From the toolchain's WebAssembly, whose addresses have 64 bits, to one with addresses of 32, which every browser runs: the memory becomes one of 32 bits, and each address is cut to 32 just
// before it is used. Everything else stays: what the engine counts and compares, and how every struct lies. No address is lost, since the memory never has more than 2^32 bytes: one
// beyond it could only come from an access that the 64-bit module traps at, and of such the proved engine has none.
(function (root) {
  'use strict';

  const I32 = 0x7f;
  const I64 = 0x7e;
  const F32 = 0x7d;
  const F64 = 0x7c;
  const WRAP = 0xa7; // i32.wrap_i64
  const EXTEND_S = 0xac; // i64.extend_i32_s
  const EXTEND_U = 0xad; // i64.extend_i32_u
  const GET = 0x20;
  const SET = 0x21;

  // The type of what a store at 0x36 and on takes from above its address.
  const STORED = [I32, I64, F32, F64, I32, I32, I64, I64, I64];

  // ---- bytes

  // A number in seven bits a byte, as WebAssembly writes one.
  function unsigned(number) {
    const out = [];
    let rest = number;
    do {
      const low = rest % 128;
      rest = Math.floor(rest / 128);
      out.push(rest ? low | 128 : low);
    } while (rest);
    return out;
  }

  // A number from 0 on where a signed one is written: the bit 64 of its last byte is its sign.
  function signed(number) {
    const out = unsigned(number);
    const last = out.length - 1;
    if (out[last] & 64) out.splice(last, 1, out[last] | 128, 0);
    return out;
  }

  class Bytes {
    constructor(list) {
      this.list = list;
      this.at = 0;
    }
    get over() {
      return this.at >= this.list.length;
    }
    byte() {
      if (this.over) throw new Error('the module ends too early');
      return this.list[this.at++];
    }
    // Any number, signed or not: how many bytes it takes is all that is asked of most of them.
    skip() {
      while (this.byte() & 128);
    }
    unsigned() {
      let number = 0;
      for (let scale = 1; ; scale *= 128) {
        const b = this.byte();
        number += (b & 127) * scale;
        if (!(b & 128)) return number;
      }
    }
    part(many) {
      const from = this.at;
      this.at += many;
      if (this.at > this.list.length) throw new Error('the module ends too early');
      return this.list.subarray(from, this.at);
    }
    since(from) {
      return this.list.subarray(from, this.at);
    }
    times(many, each) {
      return Array.from({ length: many }, each);
    }
  }

  const joined = (parts) => {
    const out = new Uint8Array(parts.reduce((sum, p) => sum + p.length, 0));
    let at = 0;
    for (const p of parts) {
      out.set(p, at);
      at += p.length;
    }
    return out;
  };

  // ---- sections

  // The parameters of each type of a function.
  function typesOf(section) {
    const s = new Bytes(section);
    return s.times(s.unsigned(), () => {
      if (s.byte() !== 0x60) throw new Error('a type that is no function');
      const parameters = [...s.part(s.unsigned())];
      s.part(s.unsigned());
      return parameters;
    });
  }

  function imported(section) {
    if (new Bytes(section).unsigned() !== 0) throw new Error('the module imports something');
  }

  const indices = (section) => {
    const s = new Bytes(section);
    return s.times(s.unsigned(), () => s.unsigned());
  };

  // Memories, or tables behind the byte of what they hold, whose limits are numbers of 32 bits: the flag 4 says that they are of 64.
  function limited(section, held) {
    const s = new Bytes(section);
    const many = s.unsigned();
    const out = unsigned(many);
    for (let i = 0; i < many; i++) {
      out.push(...s.part(held));
      const flags = s.byte();
      const from = s.at;
      s.skip();
      if (flags & 1) s.skip();
      out.push(flags & ~4, ...s.since(from));
    }
    return out;
  }

  // The bytes that stand in memory from the start, each list behind its constant address.
  function data(section) {
    const s = new Bytes(section);
    const many = s.unsigned();
    const out = [unsigned(many)];
    for (let i = 0; i < many; i++) {
      const from = s.at;
      const mode = s.unsigned();
      if (mode > 1) throw new Error('bytes of a second memory');
      if (mode === 0) {
        if (s.byte() !== 0x42) throw new Error('bytes at an address that is no constant');
        const address = s.unsigned();
        if (s.byte() !== 0x0b) throw new Error('an address of more than one instruction');
        out.push([0, 0x41], signed(address), [0x0b]);
      } else {
        out.push(s.since(from));
      }
      const rest = s.at;
      s.part(s.unsigned());
      out.push(s.since(rest));
    }
    return joined(out);
  }

  // Which functions are exported, by name.
  function exported(section) {
    const s = new Bytes(section);
    const found = {};
    for (let rest = s.unsigned(); rest > 0; rest--) {
      const name = String.fromCharCode(...s.part(s.unsigned()));
      const kind = s.byte();
      const index = s.unsigned();
      if (kind === 0) found[name] = index;
    }
    return found;
  }

  // ---- code

  // Locals of a function's own for what lies above an address: one of each type that is needed, behind those that it has.
  class Spare {
    constructor(first) {
      this.first = first;
      this.types = [];
    }
    of(type, which) {
      const same = this.types.flatMap((t, i) => (t === type ? [i] : []));
      const known = same[which];
      if (known !== undefined) return unsigned(this.first + known);
      this.types.push(type);
      return unsigned(this.first + this.types.length - 1);
    }
  }

  // Instructions that touch memory other than by load and store: their three operands, destination, source or value, and number.
  function bulk(s, code, spare, from) {
    const kept = () => [...s.since(from)];
    const three = (second, cut) => {
      const number = spare.of(I64, 0);
      const value = spare.of(second, second === I64 ? 1 : 0);
      return [SET, ...number, SET, ...value, WRAP, GET, ...value, ...(cut ? [WRAP] : []), GET, ...number, WRAP];
    };
    if (code === 10) {
      s.skip();
      s.skip();
      return [...three(I64, true), ...kept()];
    }
    if (code === 11) {
      s.skip();
      return [...three(I32, false), ...kept()];
    }
    if (code <= 7) return kept();
    throw new Error(`instruction fc ${code}`);
  }

  // One instruction: the bytes that take its place.
  function instruction(s, spare) {
    const from = s.at;
    const kept = () => s.since(from);
    const op = s.byte();
    if (op >= 0x28 && op <= 0x3e) {
      // Its alignment, and what is added to the address: the linker pads that to the width of 64 bits.
      const access = [op, ...unsigned(s.unsigned()), ...unsigned(s.unsigned())];
      if (op <= 0x35) return [WRAP, ...access];
      const value = spare.of(STORED[op - 0x36], 0);
      return [SET, ...value, WRAP, GET, ...value, ...access];
    }
    if (op === 0x3f) return (s.skip(), [...kept(), EXTEND_U]);
    if (op === 0x40) return (s.skip(), [WRAP, ...kept(), EXTEND_S]);
    if (op === 0xfc) return bulk(s, s.unsigned(), spare, from);
    operands(s, op);
    return kept();
  }

  // What stands behind an instruction that touches no memory.
  function operands(s, op) {
    if (op >= 0x45 && op <= 0xc4) return;
    if (op <= 0x01 || op === 0x05 || op === 0x0b || op === 0x0f || op === 0x1a || op === 0x1b) return;
    if (op <= 0x04 || op === 0x0c || op === 0x0d || op === 0x10 || (op >= 0x20 && op <= 0x24) || op === 0x41 || op === 0x42) return s.skip();
    if (op === 0x0e) return void s.times(s.unsigned() + 1, () => s.skip());
    if (op === 0x1c) return void s.times(s.unsigned(), () => s.skip());
    if (op === 0x43) return void s.part(4);
    if (op === 0x44) return void s.part(8);
    throw new Error(`instruction ${op.toString(16)}`);
  }

  function body(list, parameters) {
    const s = new Bytes(list);
    const groups = s.unsigned();
    const from = s.at;
    let locals = parameters;
    for (let i = 0; i < groups; i++) {
      locals += s.unsigned();
      s.byte();
    }
    const declared = s.since(from);
    const spare = new Spare(locals);
    const code = [];
    while (!s.over) code.push(instruction(s, spare));
    const more = spare.types.flatMap((type) => [1, type]);
    return joined([unsigned(groups + spare.types.length), declared, more, ...code]);
  }

  function bodies(section, parameters) {
    const s = new Bytes(section);
    const many = s.unsigned();
    const out = [unsigned(many)];
    for (let i = 0; i < many; i++) {
      const lowered = body(s.part(s.unsigned()), parameters[i]);
      out.push(unsigned(lowered.length), lowered);
    }
    return joined(out);
  }

  // ---- the module

  // The module with addresses of 32 bits, and the parameters of each exported function.
  function lowered(module) {
    const s = new Bytes(module);
    const out = [s.part(8)];
    const seen = {};
    while (!s.over) {
      const id = s.byte();
      let section = s.part(s.unsigned());
      seen[id] = section;
      if (id === 2) imported(section);
      // The linker's table of functions is empty: no function is called by its place there, and of such a call `operands` would throw.
      if (id === 4) section = limited(section, 1);
      if (id === 5) section = limited(section, 0);
      if (id === 9) throw new Error('the module has functions in a table');
      if (id === 11) section = data(section);
      if (id === 10) {
        const types = typesOf(seen[1]);
        section = bodies(section, indices(seen[3]).map((type) => types[type].length));
      }
      if (id !== 0) out.push([id], unsigned(section.length), section);
    }
    const types = typesOf(seen[1]);
    const own = indices(seen[3]);
    const parameters = Object.fromEntries(Object.entries(exported(seen[7])).map(([name, index]) => [name, types[own[index]]]));
    return { bytes: joined(out), parameters };
  }

  // Its functions as the engine's scripts call them: an address is a number of JavaScript, as everything of at most 32 bits is.
  function callable(exports, parameters) {
    const own = { memory: exports.memory, __heap_base: { value: Number(exports.__heap_base.value) } };
    for (const [name, types] of Object.entries(parameters)) {
      own[name] = (...given) => exports[name](...given.map((value, i) => (types[i] === I64 ? BigInt(value) : value)));
    }
    return own;
  }

  function startNow(module) {
    const { bytes, parameters } = lowered(module);
    return callable(new WebAssembly.Instance(new WebAssembly.Module(bytes), {}).exports, parameters);
  }

  // A browser starts a longer module only so.
  async function start(module) {
    const { bytes, parameters } = lowered(module);
    const { instance } = await WebAssembly.instantiate(bytes, {});
    return callable(instance.exports, parameters);
  }

  const Lower = { lowered, start, startNow };
  if (typeof module !== 'undefined') module.exports = Lower;
  else root.Lower = Lower;
})(typeof self !== 'undefined' ? self : this);
