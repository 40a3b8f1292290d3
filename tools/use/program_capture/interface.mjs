/**
 * Takes the place of WebAssembly's interface for JavaScript, so that instances are recorded while the program runs as
 * it is. Works in Node.js, in pages and in workers. Each of its functions is a proxy of the engine's own: its name
 * and length are the same, and where nothing can be recorded the engine's own function does the work.
 */

const { Module, Instance, Memory, Table, Global } = WebAssembly;
const { compile, instantiate, compileStreaming, instantiateStreaming } = WebAssembly;
const { apply, construct } = Reflect;
const exportsOf = /** @type {() => object} */ (Object.getOwnPropertyDescriptor(Instance.prototype, 'exports')?.get);

/** What the engine has, for what must not be recorded. */
export const native = { Module, Instance, Memory, Table, Global, compile, instantiate };

/** @typedef {(imports: any, modules: WebAssembly.Module[], maximum: number | null | undefined) => any} Join */
/**
 * One instance that is recorded.
 * @typedef {object} Recording
 * @property {() => Uint8Array[]} parts the modules that take the place of the program's
 * @property {Join} join instantiates the parts, and gives what the instance exports
 * @property {(error: unknown) => boolean} isOwn whether an error is ours, and not the program's; notes it
 */
/** @typedef {(module: WebAssembly.Module, bytes: Uint8Array | undefined) => Recording | null} RecordingOf */
/**
 * What the interface reports.
 * @typedef {object} Listener
 * @property {RecordingOf} recordingOf is asked of each module that is to be instantiated
 * @property {(table: WebAssembly.Table) => void} tableChanged
 * @property {() => void} instanceMade
 */
/** @typedef {() => any} Plainly makes an instance, or a promise of one, without a recording */

/** Buffers may be those of another realm, so their classes are not compared. */
const BUFFERS = ['[object ArrayBuffer]', '[object SharedArrayBuffer]'];

/**
 * A copy of the bytes that a module is made from, or undefined where the engine will throw.
 * @param {any} source
 */
function copied(source) {
  try {
    const isView = ArrayBuffer.isView(source);
    if (!isView && !BUFFERS.includes(Object.prototype.toString.call(source))) return undefined;
    return new Uint8Array(isView ? source.buffer : source, isView ? source.byteOffset : 0, source.byteLength).slice();
  } catch {
    return undefined;
  }
}

export class Interface {
  /** @param {Listener} listener */
  constructor(listener) {
    this.listener = listener;
    /** @type {WeakMap<WebAssembly.Module, Uint8Array>} */
    this.sources = new WeakMap();
    /**
     * What instances that are recorded export.
     * @type {WeakMap<WebAssembly.Instance, object>}
     */
    this.exports = new WeakMap();
    /**
     * The maxima of memories and tables, which no object gives back.
     * @type {WeakMap<object, number | null>}
     */
    this.maxima = new WeakMap();
  }

  /** @param {WebAssembly.Module} module @param {Uint8Array | undefined} bytes */
  note(module, bytes) {
    if (bytes !== undefined) this.sources.set(module, bytes);
    return module;
  }

  /**
   * The recording of a module that is to be instantiated, or null. No error of ours gets to the program.
   * @param {any} module
   */
  begun(module) {
    if (!(module instanceof Module)) return null;
    try {
      return this.listener.recordingOf(module, this.sources.get(module));
    } catch {
      return null;
    }
  }

  /**
   * The maximum of the memory that is imported, null if it has none, undefined if it is not known.
   * @param {WebAssembly.Module} module
   * @param {any} imports
   */
  maximum(module, imports) {
    const item = Module.imports(module).find(({ kind }) => kind === 'memory');
    return item === undefined ? undefined : this.maxima.get(imports?.[item.module]?.[item.name]);
  }

  /**
   * The instance of a recording.
   * @param {Recording} recording
   * @param {WebAssembly.Module} module
   * @param {WebAssembly.Module[]} modules
   * @param {any} imports
   * @param {Plainly} plainly
   */
  joined(recording, module, modules, imports, plainly) {
    let all;
    try {
      all = recording.join(imports, modules, this.maximum(module, imports));
    } catch (error) {
      if (!recording.isOwn(error)) throw error;
      return this.unrecorded(plainly);
    }
    const own = Object.create(null);
    for (const { name } of Module.exports(module)) own[name] = all[name];
    const instance = Object.create(Instance.prototype);
    this.exports.set(instance, Object.freeze(own));
    return instance;
  }

  /** @param {Plainly} plainly */
  unrecorded(plainly) {
    this.listener.instanceMade();
    return plainly();
  }

  /** @param {WebAssembly.Module} module @param {any} imports @param {Plainly} plainly */
  now(module, imports, plainly) {
    const recording = this.begun(module);
    if (recording === null) return this.unrecorded(plainly);
    let modules;
    try {
      modules = recording.parts().map(bytes => new Module(bytes));
    } catch (error) {
      recording.isOwn(error);
      return this.unrecorded(plainly);
    }
    return this.joined(recording, module, modules, imports, plainly);
  }

  /** @param {WebAssembly.Module} module @param {any} imports @param {Plainly} plainly */
  async later(module, imports, plainly) {
    const recording = this.begun(module);
    if (recording === null) return this.unrecorded(plainly);
    let modules;
    try {
      modules = await Promise.all(recording.parts().map(bytes => compile(bytes)));
    } catch (error) {
      recording.isOwn(error);
      return this.unrecorded(plainly);
    }
    return this.joined(recording, module, modules, imports, plainly);
  }

  /**
   * `instantiate` of bytes: compiles them, and instantiates the module.
   * @param {any} self
   * @param {any[]} args
   */
  async fromBytes(self, args) {
    const bytes = copied(args[0]);
    if (bytes === undefined) return apply(instantiate, self, args);
    /** @type {WebAssembly.Module} */
    let module;
    try {
      module = await compile(bytes);
    } catch {
      return apply(instantiate, self, [bytes, ...args.slice(1)]);
    }
    this.note(module, bytes);
    return { module, instance: await this.later(module, args[1], () => instantiate(module, args[1])) };
  }

  /**
   * The module of a response, and its bytes, which are read from a copy of it.
   * @param {any} self
   * @param {any[]} args
   */
  async streamed(self, args) {
    /** @type {Promise<ArrayBuffer> | undefined} */
    let copy;
    const response = Promise.resolve(args[0]).then(given => {
      try {
        copy = given.clone().arrayBuffer();
        copy?.catch(() => {});
      } catch { /* The engine's own error follows. */ }
      return given;
    });
    const module = await apply(compileStreaming, self, [response, ...args.slice(1)]);
    return this.note(module, copy === undefined ? undefined : new Uint8Array(await copy));
  }

  install() {
    this.installConstructors();
    this.installFunctions();
    const { exports } = this;
    const get = new Proxy(exportsOf, { apply: (target, self, args) => exports.get(self) ?? apply(target, self, args) });
    const old = Object.getOwnPropertyDescriptor(Instance.prototype, 'exports');
    Object.defineProperty(Instance.prototype, 'exports', { ...old, get });
    for (const name of /** @type {('set' | 'grow')[]} */ (['set', 'grow'])) this.watchTable(name);
  }

  /**
   * Functions of a table that change it.
   * @param {'set' | 'grow'} name
   */
  watchTable(name) {
    const { listener } = this;
    const own = /** @type {Function} */ (Table.prototype[name]);
    Table.prototype[name] = /** @type {any} */ (new Proxy(own, {
      apply: (target, table, args) => {
        const result = apply(target, table, args);
        listener.tableChanged(table);
        return result;
      },
    }));
  }

  installConstructors() {
    this.replaceClass('Module', Module, (target, args, made) => {
      const bytes = copied(args[0]);
      return this.note(construct(target, args, made), bytes);
    });
    this.replaceClass('Instance', Instance, (target, args, made) => {
      const instance = this.now(args[0], args[1], () => construct(target, args, made));
      const prototype = made.prototype ?? Instance.prototype;
      if (prototype !== Instance.prototype) Object.setPrototypeOf(instance, prototype);
      return instance;
    });
    for (const [name, own] of Object.entries({ Memory, Table })) {
      this.replaceClass(name, own, (target, args, made) => {
        const object = construct(target, args, made);
        this.maxima.set(object, args[0]?.maximum === undefined ? null : Number(args[0].maximum));
        return object;
      });
    }
  }

  /** @param {string} name @param {any} own @param {(target: any, args: any[], made: any) => any} make */
  replaceClass(name, own, make) {
    const proxy = new Proxy(own, { construct: make });
    /** @type {any} */ (WebAssembly)[name] = proxy;
    Object.defineProperty(own.prototype, 'constructor', { value: proxy, writable: true, configurable: true });
  }

  /** @param {string} name @param {any} own @param {(self: any, args: any[]) => any} call */
  replace(name, own, call) {
    if (own === undefined) return;
    /** @type {any} */ (WebAssembly)[name] = new Proxy(own, { apply: (_, self, args) => call(self, args) });
  }

  installFunctions() {
    this.replace('compile', compile, async (self, args) => {
      const bytes = copied(args[0]);
      return this.note(await apply(compile, self, args), bytes);
    });
    this.replace('instantiate', instantiate, (self, args) => (args[0] instanceof Module
      ? this.later(args[0], args[1], () => apply(instantiate, self, args)) : this.fromBytes(self, args)));
    this.replace('compileStreaming', compileStreaming, (self, args) => this.streamed(self, args));
    this.replace('instantiateStreaming', instantiateStreaming, async (self, args) => {
      const module = await this.streamed(self, args);
      return { module, instance: await this.later(module, args[1], () => instantiate(module, args[1])) };
    });
  }
}
