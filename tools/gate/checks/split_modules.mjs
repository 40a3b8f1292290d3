/**
 * Random modules for the tests of splits: functions that call imports, each other and the table, with floats, several
 * results, references, exceptions, tail calls, passive segments and growth. Each call of a function takes fuel, so all
 * end.
 */
import { exportItem, importItem, moduleBytes, KIND, TypeList } from '../../use/wasm/assembler.mjs';
import { constant, flat, s32, u32, vector } from '../../use/wasm/encoding.mjs';
import { F32, F64, FUNCREF, I32, I64 } from '../../use/wasm/value_types.mjs';

/** Where bytes are read and written most: within blocks that the recorder knows as a whole, and over their ends. */
const PLACES = [0, 0, 1000, 1024, 2040, 4096];
/** The same of modules that mostly read and write cells, and of their hosts. */
const NEAR_PLACES = [0, 1000, 1024];
const CELLS = 4;

const TYPES = [I32, I32, I32, I64, F32, F64];
const END = 0x0b;
export const FIRST_FUEL = 60;
const LOADS = { [I32]: [0x28, 0x2c, 0x2d, 0x2e, 0x2f], [I64]: [0x29, 0x30, 0x31, 0x32, 0x33, 0x34, 0x35], [F32]: [0x2a],
  [F64]: [0x2b] };
const STORES = [[0x36, I32], [0x37, I64], [0x38, F32], [0x39, F64], [0x3a, I32], [0x3b, I32], [0x3c, I64], [0x3d, I64],
  [0x3e, I64]];
const MAIN_IMPORTS = [{ params: [I32, I32], results: [I32] }, { params: [I64, F64], results: [F64] },
  { params: [], results: [] },
  { params: [F32], results: [F32] }];
export const IMPORTS = MAIN_IMPORTS.length + 1;

/** The instructions of one body. */
class Body {
  constructor(module, random, locals) {
    Object.assign(this, { module, random, locals });
  }

  literal(type) {
    const { random } = this;
    if (type === I32) return constant(I32, random.chance(60) ? random.below(300) - 20 : random.bits());
    if (type === I64) return constant(I64, BigInt(random.bits()) * (random.chance(50) ? 1n : 4294967291n));
    if (type === F32) return constant(F32, random.chance(70) ? 0x3f800000 + random.below(99999) : random.bits());
    const wild = BigInt(random.bits()) << 32n | BigInt(random.bits());
    return constant(F64, random.chance(70) ? 0x3ff0000000000000n + BigInt(random.bits()) : wild);
  }

  local(type) {
    const places = this.locals.flatMap((other, place) => (other === type ? [place] : []));
    return places.length > 0 ? this.random.pick(places) : null;
  }

  /** Instructions that push a value of the type. */
  value(type, depth) {
    const { random, module } = this;
    const place = this.local(type);
    if (depth <= 0) return place !== null && random.chance(60) ? [0x20, u32(place)] : this.literal(type);
    const inner = other => this.value(other, depth - 1 - random.below(2));
    const kind = random.below(14);
    if (kind === 0) return [this.address(depth), random.pick(LOADS[type]), 0, u32(this.offset())];
    if (kind === 1) return this.global(type);
    if (kind <= 3) return this.call(type, inner);
    if (kind === 4 || kind >= 12) return this.indirectCall(type, inner);
    if (kind === 5) return [inner(I32), 0x04, type, this.statement(depth - 1), inner(type), 0x05, inner(type), END];
    const select = random.chance(module.isPlain ? 0 : 20) ? [0x1c, 1, type] : 0x1b;
    if (kind === 6) return [inner(type), inner(type), inner(I32), select];
    if (kind === 7 && type === I32) return random.chance(80) ? [0x3f, 0] : [0x41, 1, 0x40, 0];
    return this.calculation(type, inner);
  }

  offset() {
    return this.random.chance(98) ? this.random.below(64) : this.random.below(70000);
  }

  address(depth) {
    const { random } = this;
    if (random.chance(60)) return [this.value(I32, depth - 2), 0x41, 0x1f, 0x71, 0x41, s32(random.pick(this.module.places)), 0x6a];
    return [this.value(I32, depth - 2), 0x41, s32(random.chance(97) ? 0x3ff : 0x1ffff), 0x71];
  }

  global(type) {
    const places = this.module.globals.flatMap((other, place) => (other === type ? [place] : []));
    return places.length > 0 ? [0x23, u32(this.random.pick(places))] : this.literal(type);
  }

  call(type, inner) {
    const { signatures } = this.module;
    const fits = item => item.results[0] === type && (item.results.length === 1 || type === I32);
    const places = signatures.flatMap((item, place) => (fits(item) ? [place] : []));
    if (places.length === 0) return this.literal(type);
    const index = this.random.pick(places);
    const { params, results } = signatures[index];
    return [params.map(inner), 0x10, u32(index), results.slice(1).map(() => 0x1a)];
  }

  indirectCall(type, inner) {
    const { random, module } = this;
    const places = module.signatures.filter(item => item.results.length === 1 && item.results[0] === type);
    if (places.length === 0) return this.literal(type);
    const item = random.pick(places);
    const number = module.types.index(item);
    const fitting = module.entries.flatMap((index, place) =>
      (index !== null && module.types.index(module.signatures[index]) === number ? [place] : []));
    const isWild = random.chance(3);
    if (fitting.length === 0 && !isWild) return this.literal(type);
    const entry = isWild ? random.below(module.tableSize + 2) : random.pick(fitting);
    return [item.params.map(inner), 0x41, s32(entry), 0x11, u32(number), 0];
  }

  calculation(type, inner) {
    const { random, module } = this;
    const pair = (other, ops) => [inner(other), inner(other), random.pick(ops)];
    const one = (other, ops) => [inner(other), random.pick(ops)];
    const floats = !module.isPlain && random.chance(40);
    if (type === I32) {
      if (floats) return random.pick([() => pair(F64, [0x61, 0x63]), () => pair(F32, [0x5b, 0x5d]),
          () => one(F32, [[0xfc, 0], [0xfc, 1]]),
        () => one(F64, random.chance(90) ? [[0xfc, 2], [0xfc, 3]] : [0xaa])])();
      return random.pick([() => pair(I32, [0x6a, 0x6b, 0x6c, 0x71, 0x72, 0x73, 0x74, 0x75, 0x76, 0x46, 0x48, 0x4f]),
        () => one(I32, [0x45, 0x67, 0x68, 0xc0, 0xc1]), () => one(I64, [0xa7, 0x50]), () => one(F32, [0xbc]),
        () => pair(I32, random.chance(5) ? [0x6d] : [0x6a])])();
    }
    if (type === I64) {
      if (floats) return one(F64, [[0xfc, 6], [0xfc, 7]]);
      return random.pick([() => pair(I64, [0x7c, 0x7d, 0x7e, 0x83, 0x85, 0x86]), () => one(I32, [0xac, 0xad]),
        () => one(F64, [0xbd])])();
    }
    if (!floats) return type === F32 ? one(I32, [0xbe]) : one(I64, [0xbf]);
    if (type === F32) return random.pick([() => pair(F32, [0x92, 0x94, 0x98]), () => one(I32, [0xb2])])();
    return random.pick([() => pair(F64, [0xa0, 0xa2, 0xa6]), () => one(I32, [0xb7]), () => one(F32, [0xbb])])();
  }

  /** Instructions that leave the stack as it is. */
  statement(depth) {
    const { random, module } = this;
    if (depth <= 0) return [];
    const value = type => this.value(type, depth - 1);
    if (module.isOfCells && random.chance(50)) return this.cell(value);
    const kind = random.below(module.isPlain ? 12 : 15);
    if (kind <= 1) return this.store(depth);
    if (kind === 2) return this.setGlobal(value);
    if (kind === 3) return this.setLocal(value);
    if (kind === 4) return this.callStatement(value);
    if (kind === 5) return [value(I32), 0x04, 0x40, this.statement(depth - 1), this.statement(depth - 1), END];
    if (kind === 6 || kind === 7) return this.range(kind === 6, depth, value);
    if (kind <= 9) return this.cell(value);
    if (kind === 10) return this.loop(depth);
    if (kind === 11) return this.branches(depth, value);
    return random.chance(60) ? this.ofRest(depth, value) : this.statement(depth - 1);
  }

  store(depth) {
    const [op, type] = this.random.pick(STORES);
    return [this.address(depth), this.value(type, depth - 1), op, 0, u32(this.random.below(64))];
  }

  setGlobal(value) {
    const place = 1 + this.random.below(this.module.globals.length - 1);
    return [value(this.module.globals[place]), 0x24, u32(place)];
  }

  setLocal(value) {
    if (this.locals.length === 0) return [];
    const place = this.random.below(this.locals.length);
    return [value(this.locals[place]), 0x21, u32(place)];
  }

  callStatement(value) {
    const index = this.random.below(this.module.signatures.length);
    const { params, results } = this.module.signatures[index];
    return [params.map(value), 0x10, u32(index), results.map(() => 0x1a)];
  }

  /** A copy or a fill. */
  range(isCopy, depth, value) {
    if (this.random.chance(60)) return this.rangeOfCells(isCopy, value);
    const count = [value(I32), 0x41, 0x3f, 0x71];
    if (isCopy) return [this.address(depth), this.address(depth), count, 0xfc, 10, 0, 0];
    return [this.address(depth), value(I32), count, 0xfc, 11, 0];
  }

  /** A copy or a fill among cells, one of which is read then. */
  rangeOfCells(isCopy, value) {
    const { random } = this;
    const cell = () => [0x41, s32(random.pick(this.module.places) + 4 * random.below(15))];
    const [to, count] = [cell(), [0x41, s32(4 + random.below(20))]];
    const done = isCopy ? [to, cell(), count, 0xfc, 10, 0, 0] : [to, value(I32), count, 0xfc, 11, 0];
    const place = this.local(I32);
    return [done, to, random.pick([0x28, 0x2d, 0x2e]), 0, 0, place === null ? 0x1a : [0x21, u32(place)]];
  }

  /** A cell is read, changed and read again. */
  cell(value) {
    const { random } = this;
    const { places, isOfCells } = this.module;
    const cell = [0x41, s32(random.pick(places) + 8 * random.below(isOfCells ? CELLS : 8))];
    const place = this.local(I32);
    const into = place === null ? 0x1a : [0x21, u32(place)];
    const [load, store] = [random.pick([0x28, 0x2d, 0x2e]), random.pick([0x36, 0x3a, 0x3b])];
    return [cell, load, 0, 0, into, cell, value(I32), store, 0, 0, cell, load, 0, 0, into];
  }

  /** A loop of about five rounds, counted in a local. Each round takes fuel: what is in the loop may set the local. */
  loop(depth) {
    const place = this.local(I32);
    if (place === null) return [];
    const fuel = [0x23, 0, 0x45, 0x0d, 1, 0x23, 0, 0x41, 1, 0x6b, 0x24, 0];
    const count = [0x20, u32(place), 0x41, 1, 0x6b, 0x22, u32(place), 0x41, 5, 0x49];
    const first = [0x41, s32(this.random.below(5)), 0x21, u32(place)];
    return [first, 0x02, 0x40, 0x03, 0x40, fuel, this.statement(depth - 2), count, 0x0d, 0, END, END];
  }

  branches(depth, value) {
    if (this.random.chance(50)) return [0x02, 0x40, this.statement(depth - 1), value(I32), 0x0d, 0,
        this.statement(depth - 1), END];
    return [0x02, 0x40, 0x02, 0x40, value(I32), 0x0e, 1, 0, 1, this.statement(depth - 1), END,
      this.statement(depth - 1), END];
  }

  /** What keeps a function out of the kept part. */
  ofRest(depth, value) {
    const { random, module } = this;
    const func = () => [0xd2, u32(IMPORTS + random.below(module.signatures.length - IMPORTS))];
    const entry = () => [0x41, s32(random.below(module.tableSize))];
    switch (random.below(6)) {
      case 0: case 1: return [entry(), func(), 0x26, 0];
      case 2: return [0x06, 0x40, this.statement(depth - 1), 0x19, this.statement(depth - 1), END];
      case 3: return [this.address(depth), 0x41, s32(random.below(4)), 0x41, s32(random.below(4)), 0xfc, 8,
        u32(module.passive), 0];
      case 4: return [random.chance(30) ? [func(), 0x41, 1, 0xfc, 15, 0, 0x1a] : [entry(), entry(), 0x41, 1, 0xfc, 14,
        0, 0]];
      default: return [this.address(depth), this.literal(I64), 0xfd, 18, 0xfd, 11, 0, 0];
    }
  }
}

/** A random module. `signatures` are those of its functions, imported ones first. */
export class RandomModule {
  /** @param {boolean} isPlain whether it has only what r3 takes */
  constructor(random, isPlain) {
    this.random = random;
    this.isPlain = isPlain;
    /** Whether it mostly reads and writes a few cells, as its host does: so what is owned and found late is seen. */
    this.isOfCells = random.chance(40);
    this.places = this.isOfCells ? NEAR_PLACES : PLACES;
    this.types = new TypeList();
    const several = { params: [I32], results: isPlain ? [I32] : [I32, F64] };
    this.signatures = [...MAIN_IMPORTS, several];
    const count = 3 + random.below(7);
    for (let index = 0; index < count; index++) {
      const results = !isPlain && random.chance(8) ? [I32, I64] : this.some(1);
      this.signatures.push(random.chance(40) ? random.pick(MAIN_IMPORTS) : { params: this.some(3), results });
    }
    this.globals = [I32, ...Array.from({ length: 3 }, () => random.pick(TYPES))];
    [this.importsMemory, this.importsTable, this.exportsTable] = [random.chance(25), random.chance(25),
      random.chance(60)];
    this.addEntries();
    this.build();
  }

  some(most) {
    return this.random.list(most, () => this.random.pick(TYPES));
  }

  addEntries() {
    const { random } = this;
    this.tableSize = 6 + random.below(6);
    this.entries = Array(this.tableSize).fill(null);
    this.segments = Array.from({ length: 2 + random.below(3) }, () => {
      const list = Array.from({ length: 1 + random.below(4) }, () => random.below(this.signatures.length));
      const offset = random.below(this.tableSize - list.length + 1);
      list.forEach((index, place) => { this.entries[offset + place] = index; });
      return { list, offset };
    });
  }

  body({ params, results }) {
    const { random } = this;
    const locals = Array.from({ length: random.below(4) }, () => random.pick(TYPES));
    const body = new Body(this, random, [...params, ...locals]);
    const outOfFuel = [0x23, 0, 0x45, 0x04, 0x40, results.map(type => body.literal(type)), 0x0f, END];
    const fuel = [outOfFuel, 0x23, 0, 0x41, 1, 0x6b, 0x24, 0];
    const statements = Array.from({ length: 1 + random.below(4) }, () => body.statement(3));
    const isTail = !this.isPlain && random.chance(6);
    const end = isTail ? this.tailCall(body, results) : results.map(type => body.value(type, 3));
    return flat([vector(locals.map(type => [1, type])), fuel, statements, end, END]);
  }

  tailCall(body, results) {
    const places = this.signatures.flatMap((item, place) => (String(item.results) === String(results) ? [place] : []));
    if (places.length === 0) return results.map(type => body.value(type, 2));
    const index = this.random.pick(places);
    return [this.signatures[index].params.map(type => body.value(type, 2)), 0x12, u32(index)];
  }

  build() {
    const { random, types } = this;
    this.signatures.forEach(item => types.index(item));
    const defined = this.signatures.slice(IMPORTS);
    const [memory, table] = [[1, 1, 5], [FUNCREF, 1, u32(this.tableSize), 20]];
    const imports = this.signatures.slice(0, IMPORTS).map((item, place) =>
      importItem('h', `f${place}`, KIND.function, u32(types.index(item))));
    if (this.importsMemory) imports.push(importItem('h', 'memory', KIND.memory, memory));
    if (this.importsTable) imports.push(importItem('h', 'table', KIND.table, table));
    this.data = random.list(3, () => Array.from({ length: random.below(40) }, () => random.below(256)));
    this.passive = this.data.length;
    const bodies = defined.map(item => this.body(item));
    const starts = defined.flatMap((item, place) =>
      (item.params.length + item.results.length === 0 ? [place + IMPORTS] : []));
    this.start = starts.length > 0 && random.chance(40) ? starts[0] : null;
    this.bytes = moduleBytes({ types: types.list, imports, functions: defined.map(item => types.index(item)), bodies,
      tables: this.importsTable ? [] : [table], memories: this.importsMemory ? [] : [memory],
      globals: this.globalItems(),
      exports: this.exportItems(), start: this.start, elements: this.elementItems(), data: this.dataItems(),
      countsData: !this.isPlain });
  }

  globalItems() {
    const body = new Body(this, this.random, []);
    return this.globals.map((type, place) => [type, 1, place === 0 ? constant(I32, FIRST_FUEL) : body.literal(type),
      END]);
  }

  exportItems() {
    const { random } = this;
    const all = this.signatures.map((_, index) => index);
    this.exported = all.filter(index => index === IMPORTS || random.chance(45));
    this.exportedGlobals = this.globals.flatMap((_, place) => (place > 0 && random.chance(50) ? [place] : []));
    return [...this.exported.map(index => exportItem(`e${index}`, KIND.function, index)),
      exportItem('fuel', KIND.global, 0),
      ...this.exportedGlobals.map(place => exportItem(`g${place}`, KIND.global, place)),
      exportItem('memory', KIND.memory, 0),
      ...this.exportsTable ? [exportItem('table', KIND.table, 0)] : []];
  }

  /** The segments of the table, and a declaration of all functions that `ref.func` may name. */
  elementItems() {
    const active = this.segments.map(({ list, offset }) => [0, 0x41, s32(offset), END, vector(list.map(u32))]);
    const all = this.signatures.map((_, index) => u32(index)).slice(IMPORTS);
    return this.isPlain ? active : [...active, [3, 0, vector(all)]];
  }

  dataItems() {
    const place = () => this.random.pick(this.places) + this.random.below(this.random.chance(60) ? 40 : 900);
    const active = this.data.map(bytes => [0, 0x41, s32(place()), END, vector(bytes)]);
    return this.isPlain ? active : [...active, [1, vector([1, 2, 3, 4, 5, 6, 7, 8])]];
  }
}
