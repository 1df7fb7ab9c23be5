// What the page computes, beside what it shows. Nothing is decided here: images are read and written, and records judged, by
// tools.wasm, which is tools/rom.c, check.c and recheck.c; cells are checked and tables repaired by quendaric.wasm, the calls
// of the unit. This file hands them bytes. It runs in a worker of the page, and in node for page/test.mjs.
"use strict";

// A file in memory. Files that are only read have no write: { size, read(from, to) }.
function kept(bytes = new Uint8Array(0)) {
  return {
    bytes, size: bytes.length,
    read(from, to) { return this.bytes.subarray(from, to); },
    write(at, part) {
      const end = at + part.length, before = this.bytes;
      if (end > before.length) (this.bytes = new Uint8Array(2 * end)).set(before.subarray(0, this.size));
      this.bytes.set(part, at);
      this.size = Math.max(this.size, end);
    },
    whole() { return this.bytes.slice(0, this.size); },
  };
}

// Runs a tool over WASI, as far as the tools use it: words, and a folder of files, name -> file, in which it may make new
// ones. What the folder had is not written to. Returns its status and what it wrote to standard output and error.
function run(module, words, folder, progress) {
  const given = words.map((word) => new TextEncoder().encode(word + "\0")), numbers = new Map(), fixed = new Set(folder.values());
  const [input, out, err, root] = [kept(), kept(), kept(), { folder: true, size: 0 }];
  const open = [input, out, err, root].map((file) => ({ file, at: 0, readings: 1 }));
  let memory;
  const view = () => new DataView(memory.buffer), bytes = (at, length) => new Uint8Array(memory.buffer, at, length);
  const put = (at, number) => (view().setUint32(at, number, true), 0);
  const put_long = (at, number) => (view().setBigUint64(at, BigInt(number), true), 0);
  const name_at = (at, length) => new TextDecoder().decode(bytes(at, length)).replace(/^(\.?\/)+/, "").replace(/^\.$/, "");
  const named = (name) => (name === "" ? root : folder.get(name));
  const NO_FILE = 8, THERE_IS = 20, NOT_FOUND = 44, READ_ONLY = 69;
  const parts = (list, count) => Array.from({ length: count }, (_, i) => [0, 4].map((k) => view().getUint32(list + 8 * i + k, true)));
  const tell = (file, at) => { // which file it is, and how long
    if (!file) return NOT_FOUND;
    if (!numbers.has(file)) numbers.set(file, numbers.size + 1);
    bytes(at, 64).fill(0);
    view().setUint8(at + 16, file.folder ? 3 : 4);
    return put_long(at, 1), put_long(at + 8, numbers.get(file)), put_long(at + 24, 1), put_long(at + 32, file.size);
  };
  const calls = {
    args_sizes_get: (count, size) => (put(count, given.length), put(size, given.reduce((sum, word) => sum + word.length, 0))),
    args_get: (list, at) => given.forEach((word, i) => (put(list + 4 * i, at), bytes(at, word.length).set(word), (at += word.length))) ?? 0,
    fd_close: (fd) => (open[fd] ? ((open[fd] = undefined), 0) : NO_FILE),
    fd_fdstat_get: (fd, at) => (open[fd] ? (bytes(at, 24).fill(255), put(at, open[fd].file.folder ? 3 : 4)) : NO_FILE), // every right
    fd_fdstat_set_flags: () => 0,
    fd_filestat_get: (fd, at) => (open[fd] ? tell(open[fd].file, at) : NO_FILE),
    fd_prestat_get: (fd, at) => (fd === 3 ? (put(at, 0), put(at + 4, 1)) : NO_FILE),
    fd_prestat_dir_name: (fd, at) => (bytes(at, 1).set([47]), 0),
    fd_seek(fd, by, from, at) {
      const one = open[fd];
      if (!one?.file.read) return NO_FILE;
      const to = Number(by) + [0, one.at, one.file.size][from];
      if (to < one.at) one.readings++;
      return put_long(at, (one.at = to));
    },
    fd_tell: (fd, at) => (open[fd]?.file.read ? put_long(at, open[fd].at) : NO_FILE),
    fd_sync: (fd) => (open[fd] ? 0 : NO_FILE),
    fd_read(fd, list, count, done) {
      const one = open[fd], from = one?.at;
      if (!one?.file.read) return NO_FILE;
      for (const [at, length] of parts(list, count)) {
        const to = Math.min(one.at + length, one.file.size);
        if (to > one.at) bytes(at, to - one.at).set(one.file.read(one.at, to));
        one.at = Math.max(one.at, to);
      }
      if (one.name && fixed.has(one.file)) progress?.(one.name, one.at, one.file.size, one.readings);
      return put(done, one.at - from);
    },
    fd_write(fd, list, count, done) {
      const one = open[fd], from = one?.at;
      if (!one?.file.write || fixed.has(one.file)) return NO_FILE;
      for (const [at, length] of parts(list, count)) one.file.write(one.at, bytes(at, length)), (one.at += length);
      return put(done, one.at - from);
    },
    path_filestat_get: (fd, flags, at, length, to) => tell(named(name_at(at, length)), to),
    path_open(fd, follow, at, length, flags, rights, later, mode, to) {
      const name = name_at(at, length), create = flags & 1, only_new = flags & 4, empty = flags & 8;
      if (named(name) && only_new) return THERE_IS;
      if (named(name) && (empty || flags & 2)) return READ_ONLY;
      if (!named(name) && !create) return NOT_FOUND;
      if (!named(name)) folder.set(name, kept());
      return put(to, open.push({ file: named(name), at: 0, name, readings: 1 }) - 1);
    },
    path_rename(fd, at, length, other, new_at, new_length) {
      const [from, to] = [name_at(at, length), name_at(new_at, new_length)];
      if (!folder.has(from)) return NOT_FOUND;
      if (fixed.has(folder.get(from)) || fixed.has(named(to))) return READ_ONLY;
      return folder.set(to, folder.get(from)), folder.delete(from), 0;
    },
    path_unlink_file(fd, at, length) {
      if (fixed.has(named(name_at(at, length)))) return READ_ONLY;
      return folder.delete(name_at(at, length)) ? 0 : NOT_FOUND;
    },
    proc_exit(status) { throw { status }; },
  };
  const { exports } = new WebAssembly.Instance(module, { wasi_snapshot_preview1: calls });
  memory = exports.memory;
  let status = 0;
  try { exports._start(); } catch (end) {
    if (!Object.hasOwn(end, "status")) throw end;
    status = end.status;
  }
  return { words, status, out: out.whole(), err: err.whole() };
}

// What the calls say of a table: of each cell which digits are allowed (a bit for each of 0 to 4) and the witness against the
// byte that it holds, if it is a digit that is not; and the repaired table with the number of its changes.
function examine(module, bits, table) {
  const calls = new WebAssembly.Instance(module, {}).exports, room = calls.memory.grow(1) * 65536; // ours alone
  const answer = room, burned = room + 256, repaired = burned + 4096, changed = repaired + 4096;
  const bytes = (at, length) => new Uint8Array(calls.memory.buffer, at, length);
  const words = () => new BigInt64Array(calls.memory.buffer, answer, 5);
  const allowed = new Uint8Array(2048), witness = new Map();
  for (let cell = 0; cell < 2048; cell++)
    for (let digit = 0; digit < 5; digit++) {
      calls.quendaric_check_cell_for(answer, BigInt(bits), BigInt(cell >> 7), BigInt(cell & 127), digit);
      const [refusal, , may, divisor, remainder] = words();
      if (refusal !== 0n) throw "a call refused to check a cell";
      allowed[cell] |= Number(may) << digit;
      if (may === 0n && table[cell] === digit) witness.set(cell, `divisor ${divisor}, remainder ${remainder}`);
    }
  bytes(burned, 2048).set(table);
  calls.quendaric_repair_table_for(answer, BigInt(bits), burned, 2048, repaired, 2048, changed, 2048);
  const [refusal, , changes] = words();
  if (refusal !== 0n) throw "a call refused to repair";
  return { table, allowed, witness, changes: Number(changes), repaired: bytes(repaired, 2048).slice() };
}

// The word of a command line for a file of that name.
const word_for = (name) => (/^-|^[78]$/.test(name) ? "./" + name : name);

// A job: the image by rom's words; with bits its verdict and repair; with records recheck by its words. Returns each step, as
// it was run, and the files that were made.
function work(unit, tools, { image, storing, form, bits, records, options }, progress) {
  const folder = new Map(), steps = [], files = {}, [, stem, end = ""] = image.name.match(/^(.+?)(\.[^.]*)?$/s);
  for (const file of [image, ...(records ?? [])]) {
    if (folder.has(file.name)) throw `two files have the name ${file.name}`;
    folder.set(file.name, file);
  }
  const step = (...words) => steps[steps.push(run(tools, words, folder, progress)) - 1].status;
  const keep = (...names) => names.forEach((name) => folder.has(name) && (files[name] = folder.get(name).whole()));
  const given = form ? ["--from", form] : [], digits = `${stem}-digits.table`;
  if (step("rom", "read", ...storing, ...given, word_for(image.name), word_for(digits)) !== 0) return { steps };
  const table = folder.get(digits).whole(), is_same = image.size === 2048 && image.read(0, 2048).every((byte, i) => byte === table[i]);
  const burned = word_for(is_same ? image.name : digits); // an image that is the table is handed over as it is
  if (records) {
    step("recheck", "--estimate", bits, ...options, burned, ...records.map((file) => word_for(file.name)));
    return keep("recheck-averages.csv", "recheck.svg"), { steps, files };
  }
  if (!bits) return { steps };
  step("check", "--list", bits, burned);
  const found = examine(unit, bits, table);
  if (found.changes === 0) return { steps, found, files };
  const mended = `${stem}-repaired-digits.table`, back = `${stem}-repaired${end}`, hex = `${stem}-repaired.hex`;
  folder.set(mended, kept(found.repaired));
  step("check", bits, word_for(mended));
  step("rom", "write", ...storing, ...(form ? ["--to", form] : []), word_for(mended), word_for(back));
  if (back !== hex) step("rom", "write", ...storing, "--to", "hex", word_for(mended), word_for(hex));
  step("rom", "diff", ...storing, ...given, word_for(image.name), word_for(back));
  return keep(back, hex, mended), { steps, found, files, mended };
}

if (typeof FileReaderSync !== "undefined") {
  const reader = new FileReaderSync(), read = (file, from, to) => new Uint8Array(reader.readAsArrayBuffer(file.slice(from, to)));
  const read_only = (file) => ({ name: file.name, size: file.size, read: (from, to) => read(file, from, to) });
  let shown = 0;
  onmessage = ({ data: { modules, image, records, ...job } }) => {
    const progress = (name, at, size, reading) => {
      if (name === image.name || performance.now() - shown < 100) return; // of the records alone
      shown = performance.now();
      postMessage({ progress: { name, part: at / size, reading } });
    };
    try {
      const [unit, tools] = modules.map((bytes) => new WebAssembly.Module(bytes));
      postMessage({ answer: work(unit, tools, { image: read_only(image), records: records?.map(read_only), ...job }, progress) });
    } catch (error) {
      postMessage({ error: String(error) });
    }
  };
} else if (typeof exports !== "undefined") Object.assign(exports, { run, kept, examine, work });
