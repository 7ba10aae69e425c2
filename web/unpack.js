// Unpacks the module: a stream of LZMA without a header, as `lzma` of Python writes it with LC = 3, LP = 0 and PB = 0. Each
// bit is read by a probability, which it then changes. The bits are those of bytes, and of copies of bytes that came before.
"use strict";

function expanded(packed, size) {
  const out = new Uint8Array(size);
  const table = number => new Uint16Array(number).fill(1024);
  const lengths = () => ({ choice: table(2), low: table(8), middle: table(8), high: table(256) });
  const literal = table(768 << 3), isCopy = table(12), isOld = table(12), isOther = table(12), isThird = table(12);
  const isFourth = table(12), isLong = table(12), slots = [table(64), table(64), table(64), table(64)];
  const near = table(128), low = table(16), newLength = lengths(), oldLength = lengths();
  const last = [0, 0, 0, 0];
  let at = 5, code = 0, range = -1 >>> 0, to = 0, state = 0;
  for (let i = 1; i < 5; i++) code = (code << 8 | packed[i]) >>> 0;

  function bit(table, i) {
    const chance = table[i], bound = (range >>> 11) * chance;
    let found;
    if (code < bound) {
      range = bound;
      table[i] = chance + (2048 - chance >> 5);
      found = 0;
    } else {
      range -= bound;
      code -= bound;
      table[i] = chance - (chance >> 5);
      found = 1;
    }
    if (range < 0x1000000) {
      range = range << 8 >>> 0;
      code = (code << 8 | packed[at++]) >>> 0;
    }
    return found;
  }

  // A number of this many bits. The highest comes first.
  function number(table, from, bits) {
    let here = 1;
    for (let i = 0; i < bits; i++) here = here << 1 | bit(table, from + here);
    return here - (1 << bits);
  }

  // A number whose lowest bit comes first.
  function turned(table, from, bits) {
    let here = 1, found = 0;
    for (let i = 0; i < bits; i++) {
      const one = bit(table, from + here);
      here = here << 1 | one;
      found |= one << i;
    }
    return found;
  }

  // Bits that are as likely 0 as 1.
  function plain(bits) {
    let found = 0;
    for (let i = 0; i < bits; i++) {
      range >>>= 1;
      const one = code >= range ? 1 : 0;
      if (one) code -= range;
      found = found << 1 | one;
      if (range < 0x1000000) {
        range = range << 8 >>> 0;
        code = (code << 8 | packed[at++]) >>> 0;
      }
    }
    return found;
  }

  function length(tables) {
    if (!bit(tables.choice, 0)) return 2 + number(tables.low, 0, 3);
    if (!bit(tables.choice, 1)) return 10 + number(tables.middle, 0, 3);
    return 18 + number(tables.high, 0, 8);
  }

  function distance(bytes) {
    const slot = number(slots[Math.min(bytes - 2, 3)], 0, 6);
    if (slot < 4) return slot;
    const bits = (slot >> 1) - 1, first = 2 | slot & 1;
    if (slot < 14) return (first << bits) + turned(near, (first << bits) - slot, bits);
    return (first << bits >>> 0) + (plain(bits - 4) << 4 >>> 0) + turned(low, 0, 4);
  }

  while (to < size) {
    if (!bit(isCopy, state)) {
      const from = 768 * (to ? out[to - 1] >> 5 : 0);
      let here = 1;
      if (state >= 7) {
        let like = out[to - last[0] - 1];
        while (here < 256) {
          const guess = like >> 7 & 1, one = bit(literal, from + (1 + guess << 8) + here);
          like <<= 1;
          here = here << 1 | one;
          if (guess !== one) break;
        }
      }
      while (here < 256) here = here << 1 | bit(literal, from + here);
      out[to++] = here;
      state = state < 4 ? 0 : state < 10 ? state - 3 : state - 6;
      continue;
    }
    let bytes;
    if (!bit(isOld, state)) {
      bytes = length(newLength);
      last.unshift(distance(bytes));
      last.length = 4;
      state = state < 7 ? 7 : 10;
    } else {
      let which = 0;
      if (!bit(isOther, state)) {
        if (!bit(isLong, state)) {
          out[to] = out[to - last[0] - 1];
          to++;
          state = state < 7 ? 9 : 11;
          continue;
        }
      } else {
        which = !bit(isThird, state) ? 1 : !bit(isFourth, state) ? 2 : 3;
        last.unshift(last.splice(which, 1)[0]);
      }
      bytes = length(oldLength);
      state = state < 7 ? 8 : 11;
    }
    for (const from = to - last[0] - 1, end = Math.min(size, to + bytes), gap = to - from; to < end; to++) out[to] = out[to - gap];
  }
  return out;
}
