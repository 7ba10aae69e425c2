// What a program of the command line asks of C, for a module with a memory of 64 bits: words, files in memory, a clock,
// a heap. Pointers and numbers of 64 bits come as BigInt. Threads are refused, and one processor is reported.
"use strict";

class Ended extends Error {
  constructor(status) {
    super(`ended with status ${status}`);
    this.status = status;
  }
}

const ERRORS = { noFile: 2, badFile: 9, again: 11, exists: 17, tooLarge: 27, noSeek: 29, noCall: 38, timedOut: 110 };
const OPEN = { create: 64, exclusive: 128, empty: 512, append: 1024 };
const MOST_WRITTEN = 16 << 20;

// Blocks of powers of two from 16 bytes, each behind 16 bytes that hold its size. Free blocks of a class are a list.
// A block of more than 65,536 bytes is cut at its size, and goes back to the class that it can serve.
class Heap {
  constructor(memory, base) {
    this.memory = memory;
    this.top = Math.ceil(Number(base) / 16) * 16;
    this.free = [];
    this.see();
  }

  see() {
    this.view = new DataView(this.memory.buffer);
  }

  room(to) {
    const have = this.memory.buffer.byteLength;
    if (to <= have) return true;
    const more = Math.ceil((to - have) / 65536), quarter = Math.ceil(have / 262144);
    for (const pages of more < quarter ? [quarter, more] : [more]) {
      try {
        this.memory.grow(BigInt(pages));
        this.see();
        return true;
      } catch {
        // as little as is needed, or none
      }
    }
    return false;
  }

  take(bytes) {
    if (bytes > 2 ** 40) return 0;
    const kind = bytes <= 16 ? 4 : bytes <= 2 ** 31 ? 32 - Math.clz32(bytes - 1) : Math.ceil(Math.log2(bytes));
    const list = this.free[kind];
    if (list && list.length) return list.pop();
    const size = kind > 16 ? Math.ceil(bytes / 4096) * 4096 : 2 ** kind;
    const at = this.top + 16;
    if (!this.room(at + size)) return 0;
    this.top = at + size;
    this.view.setFloat64(at - 8, size, true);
    return at;
  }

  size(at) {
    return this.view.getFloat64(at - 8, true);
  }

  give(at) {
    const kind = Math.floor(Math.log2(this.size(at)));
    (this.free[kind] ??= []).push(at);
  }
}

/* exported runModule */
function runModule(module, words, files) {
  const text = new TextEncoder(), letters = new TextDecoder();
  const args = words.map(word => text.encode(word));
  const output = { 1: [], 2: [] };
  let written = 0, errno = 0, heap, memory, everyFeature;
  const open = [{ data: files["-"] ?? new Uint8Array(0), at: 0 }, {}, {}];

  const bytes = (at, count) => new Uint8Array(memory.buffer, Number(at), Number(count));
  const named = at => {
    const all = new Uint8Array(memory.buffer, Number(at)), end = all.indexOf(0);
    return letters.decode(all.slice(0, end)).replace(/^(\.\/+)+/, "");
  };
  const fail = (code, result = -1n) => {
    errno = code;
    return result;
  };
  const start = (name, flags) => {
    if (!(name in files)) {
      if (!(flags & OPEN.create)) return fail(ERRORS.noFile, -1);
      files[name] = new Uint8Array(0);
    } else if (flags & OPEN.create && flags & OPEN.exclusive) return fail(ERRORS.exists, -1);
    else if (flags & OPEN.empty) files[name] = new Uint8Array(0);
    return open.push({ name, at: flags & OPEN.append ? files[name].length : 0 }) - 1;
  };
  const held = file => (file.name === undefined ? file.data : files[file.name]);
  const put = (number, at, count) => {
    const from = bytes(at, count);
    if (number === 1 || number === 2) {
      written += from.length;
      if (written > MOST_WRITTEN) return fail(ERRORS.tooLarge);
      output[number].push(from.slice());
      return count;
    }
    const file = open[number];
    if (!file || file.name === undefined) return fail(ERRORS.badFile);
    let data = files[file.name];
    if (file.at + from.length > data.length) {
      const longer = new Uint8Array(file.at + from.length);
      longer.set(data);
      data = files[file.name] = longer;
    }
    data.set(from, file.at);
    file.at += from.length;
    return count;
  };
  const about = (name, to) => {
    const number = Object.keys(files).indexOf(name);
    if (number < 0) return fail(ERRORS.noFile, -1);
    bytes(to, 256).fill(0);
    const view = new DataView(memory.buffer, Number(to));
    view.setUint32(0, 0x7ff, true); // what is known
    view.setUint32(16, 1, true); // links
    view.setUint16(28, 0o100644, true); // a file
    view.setBigUint64(32, BigInt(number + 1), true); // its number
    view.setBigUint64(40, BigInt(files[name].length), true);
    return 0;
  };
  const tried = (to, at) => {
    heap.view.setBigUint64(Number(to), at ? 1n : 0n, true);
    heap.view.setBigUint64(Number(to) + 8, BigInt(at), true);
  };
  const argument = (number, at, count) => {
    const word = args[Number(number)];
    if (word === undefined) return -1n;
    const short = word.subarray(0, Number(count));
    bytes(at, short.length).set(short);
    return word.length > Number(count) ? -2n : BigInt(word.length);
  };
  const compare = (a, b, count) => {
    const one = bytes(a, count), other = bytes(b, count);
    for (let i = 0; i < one.length; i++) if (one[i] !== other[i]) return one[i] - other[i];
    return 0;
  };

  // The functions of C, in the order of the alphabet within each part. make.py finds their names here.
  const c = {
    // the heap
    free(at) { if (at) heap.give(Number(at)); },
    malloc(count) { return BigInt(heap.take(Number(count))); },
    rattle_alloc(to, count) { tried(to, heap.take(Number(count))); },
    rattle_dealloc(at) { heap.give(Number(at)); },
    rattle_realloc(to, at, kept, count) {
      const old = Number(at), size = heap.size(old), wanted = Number(count);
      if (wanted <= size && (wanted >= size / 4 || size <= 64)) return tried(to, old);
      const moved = heap.take(wanted);
      if (!moved) return tried(to, wanted <= size ? old : 0);
      bytes(moved, Math.min(Number(kept), wanted)).set(bytes(old, Math.min(Number(kept), wanted)));
      heap.give(old);
      return tried(to, moved);
    },
    // memory
    bcmp(a, b, count) { return compare(a, b, count); },
    memcmp(a, b, count) { return compare(a, b, count); },
    memcpy(to, from, count) { bytes(to, count).set(bytes(from, count)); return to; },
    memmove(to, from, count) { new Uint8Array(memory.buffer).copyWithin(Number(to), Number(from), Number(from) + Number(count)); return to; },
    memset(to, value, count) { bytes(to, count).fill(value); return to; },
    // words, the clock, the end
    _exit(status) { throw new Ended(status); },
    abort() { throw new Ended(134); },
    clock_gettime(which, to) {
      const now = performance.now();
      heap.view.setBigInt64(Number(to), BigInt(Math.floor(now / 1000)), true);
      heap.view.setBigInt64(Number(to) + 8, BigInt(Math.floor(now % 1000 * 1e6)), true);
      return 0;
    },
    getenv() { return 0n; },
    rattle_arg(number, at, count) { return argument(number, at, count); },
    rattle_arg_count() { return BigInt(args.length); },
    rattle_env() { return -1n; },
    rattle_env_at() { return -1n; },
    rattle_errno() { return errno; },
    rattle_set_errno(code) { errno = code; },
    // files
    __write(number, at, count) { return put(number, at, count); },
    chown() { return 0; },
    close(number) { open[number] = undefined; return 0; },
    fchmod() { return 0; },
    fdatasync() { return 0; },
    flock() { return 0; },
    fsync() { return 0; },
    ftruncate(number, size) {
      const file = open[number];
      if (!file || file.name === undefined) return fail(ERRORS.badFile, -1);
      const data = new Uint8Array(Number(size));
      data.set(files[file.name].subarray(0, data.length));
      files[file.name] = data;
      return 0;
    },
    getdents64() { return fail(ERRORS.badFile); },
    isatty() { return 0; },
    lseek(number, offset, from) {
      const file = open[number];
      if (!file) return fail(ERRORS.badFile);
      if (number < 3) return fail(ERRORS.noSeek);
      file.at = Number(offset) + (from === 0 ? 0 : from === 1 ? file.at : held(file).length);
      return BigInt(file.at);
    },
    open(at, flags) { return start(named(at), flags); },
    openat(folder, at, flags) { return start(named(at), flags); },
    rattle_open_dir_at() { return fail(ERRORS.noFile, -1); },
    read(number, to, count) {
      const file = open[number];
      if (!file) return fail(ERRORS.badFile);
      const some = (held(file) ?? new Uint8Array(0)).subarray(file.at, file.at + Number(count));
      bytes(to, some.length).set(some);
      file.at += some.length;
      return BigInt(some.length);
    },
    realpath() { return fail(ERRORS.noCall, 0n); },
    rename(from, to) {
      const old = named(from), name = named(to);
      if (!(old in files)) return fail(ERRORS.noFile, -1);
      files[name] = files[old];
      delete files[old];
      return 0;
    },
    statx(folder, at, flags, mask, to) { return about(named(at), to); },
    unlink(at) {
      const name = named(at);
      if (!(name in files)) return fail(ERRORS.noFile, -1);
      delete files[name];
      return 0;
    },
    write(number, at, count) { return put(number, at, count); },
    // threads: there is one
    __sysv_signal() { return 0n; },
    pthread_attr_destroy() { return 0; },
    pthread_attr_init() { return 0; },
    pthread_attr_setguardsize() { return 0; },
    pthread_attr_setstacksize() { return 0; },
    pthread_create() { return ERRORS.again; },
    pthread_detach() { return 0; },
    pthread_join() { throw new Ended(134); },
    pthread_self() { return 1n; },
    sched_getaffinity(thread, count, to) {
      bytes(to, count).fill(0)[0] = 1;
      return Math.min(Number(count), 8);
    },
    sched_yield() { return 0; },
    syscall(number, at, operation, value, time) {
      // A futex: nobody is to be woken, and a wait without an end would be for ever.
      const kind = Number(operation) & 127;
      if (kind === 1 || kind === 10) return 0n;
      if (heap.view.getInt32(Number(at), true) !== Number(BigInt.asIntN(32, value))) return fail(ERRORS.again);
      if (time) return fail(ERRORS.timedOut);
      throw new Ended(134);
    },
    sysconf() { return 1n; },
    // The module was made for x86-64-v2, and asks at its start whether the processor has that.
    __x86_get_cpuid_feature_leaf() {
      if (!everyFeature) {
        everyFeature = heap.take(32);
        bytes(everyFeature, 32).fill(255);
      }
      return BigInt(everyFeature);
    },
  };

  const began = performance.now();
  const instance = new WebAssembly.Instance(module, { env: c });
  memory = instance.exports.memory;
  heap = new Heap(memory, instance.exports.__heap_base.value);
  let status;
  try {
    status = instance.exports.main(0, 0n);
  } catch (error) {
    status = error instanceof Ended ? error.status : 134;
    if (!(error instanceof Ended)) output[2].push(text.encode(`${error}\n`));
  }
  const whole = parts => {
    const all = new Uint8Array(parts.reduce((sum, part) => sum + part.length, 0));
    let at = 0;
    for (const part of parts) {
      all.set(part, at);
      at += part.length;
    }
    return letters.decode(all);
  };
  return {
    status,
    out: whole(output[1]),
    err: whole(output[2]),
    ms: performance.now() - began,
    mb: memory.buffer.byteLength / 1048576,
    files,
  };
}
