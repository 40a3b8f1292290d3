/** What `tools/capture` gives to the function `host` of a host's file. */
interface HostContext {
  module: WebAssembly.Module;
  /** The module's file. */
  file: string;
  /** The words after the host's file. */
  words: string[];
  /** The instance, as soon as the module is instantiated. Its exports are what the host's file makes of them. */
  instance: { exports: any };
  /** Gives a function of the host's own as one that a table takes. */
  hostFunction(name: string, type: { params?: string[]; results?: string[] }, func: Function): Function;
}
