/**
 * `node --import preload.mjs PROGRAM`: records instances of an unmodified program and of its workers. Does nothing in
 * processes that the program starts.
 */
import { getEnvironmentData, isMainThread, setEnvironmentData } from 'node:worker_threads';
import { FilePlace } from './file_place.mjs';
import { VARIABLE } from './node_program.mjs';
import { Session } from './session.mjs';

/** The settings, which the main thread takes from its environment before the program sees it. */
function takenSettings() {
  if (!isMainThread) return getEnvironmentData(VARIABLE);
  const text = process.env[VARIABLE];
  delete process.env[VARIABLE];
  setEnvironmentData(VARIABLE, text);
  const own = process.execArgv.findIndex((/** @type {string} */ word) => word.startsWith('--stack-size'));
  process.execArgv.splice(own, 3);
  return text;
}

const text = takenSettings();
if (text !== undefined) {
  const settings = JSON.parse(text);
  const place = new FilePlace(settings.folder);
  const session = new Session(settings, place);
  session.install();
  process.on('exit', () => session.end());
}
