/** What the host changes in the module's state while it has control, as actions of a script. */
import { GlobalChanges } from './global_changes.mjs';

export class HostChanges {
  constructor() {
    /** @type {import('./memory_changes.mjs').MemoryChanges | null} */
    this.memory = null;
    /** @type {import('./table_changes.mjs').TableChanges | null} */
    this.table = null;
    this.globals = new GlobalChanges();
  }

  /** Notes the state when control comes to the host. The table needs no note: no instruction of Core 1.0 changes it. */
  look() {
    this.memory?.look();
    this.globals.look();
  }

  /**
   * The actions since control came to the host: the memory's growth and bytes, the table's, the globals.
   * @param {import('./addresses.mjs').AddressText} address
   * @returns {string[]}
   */
  actions(address) {
    return [...this.memory?.actions(address) ?? [], ...this.table?.actions() ?? [], ...this.globals.actions()];
  }
}
