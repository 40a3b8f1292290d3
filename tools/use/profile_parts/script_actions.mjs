/** The turns of the host by a script: one for each action of an activation that is done. */

/** @import { Import } from '../wasm/module.mjs' */

const isCall = action => 'call' in action || 'call_table' in action;

/**
 * The turns of a list of actions: up to and with each call of a function, then behind the last one.
 * @param {object[]} actions
 */
function turnsOf(actions) {
  const turns = [0];
  for (const action of actions) {
    turns[turns.length - 1]++;
    if (isCall(action)) turns.push(0);
  }
  return turns;
}

const own = (object, key) => (object !== undefined && Object.hasOwn(object, key) ? object[key] : undefined);

export class ScriptActions {
  /**
   * @param {string} text the script, which r3 has found to fit the module
   * @param {Import[]} imports the functions that the module imports
   * @param {boolean} hasStart whether a start function is called first, which takes no turn
   */
  constructor(text, imports, hasStart) {
    const script = JSON.parse(text);
    const main = turnsOf(script.main ?? []);
    this.mainTurns = hasStart ? [0, ...main] : main;
    this.answers = imports.map(({ module, name }) => own(own(script.imports, module), name) ?? {});
  }

  main() {
    return this.mainTurns;
  }

  /** The turns within a call of an import. */
  answer(import_, call) {
    const { calls = [], rest } = this.answers[import_];
    return turnsOf((calls[call] ?? rest)?.do ?? []);
  }
}
