/**
 * The host of matcher.c: gives it a text and expressions, and answers tests. Test 0 is a boundary of words, by the
 * characters on both sides. Test 1 matches another expression at that place, which the program compiles within the
 * call.
 */
import fs from 'node:fs';

const OUTER = [
  '[A-Z][a-z]+ [a-z]+', '(un|re)[a-z]+{0}', '[a-z]+ing{0}', '[0-9]+(,[0-9]+)*', '`{1}`', '(a|an|the) [a-z]+y{0}',
];
const INNER = '[a-z_]+(::[a-z_]+)*';
const NOWHERE = -1;
const letter = (/** @type {number} */ character) => /\w/.test(String.fromCharCode(character));

/** @param {HostContext} context */
export function host(context) {
  const text = fs.readFileSync(context.words[0]);
  const expressions = [...OUTER];
  /** @type {[expression: string, count: number][]} */
  const counts = [];
  const exported = () => context.instance.exports;
  /** @type {(bytes: Buffer, to: number, room: number) => number} */
  const put = (bytes, to, room) => {
    const part = bytes.subarray(0, room);
    new Uint8Array(exported().memory.buffer).set(part, to);
    return part.length;
  };
  /** @type {((at: number) => number)[]} */
  const tests = [
    at => (letter(exported().character(at - 1)) !== letter(exported().character(at)) ? at : NOWHERE),
    at => {
      expressions.unshift(INNER);
      return exported().match_at(at);
    },
  ];
  return {
    imports: {
      env: {
        text: (/** @type {number} */ to, /** @type {number} */ room) => put(text, to, room),
        expression(/** @type {number} */ to, /** @type {number} */ room) {
          const next = expressions.shift();
          if (next === undefined) return 0;
          if (next !== INNER) counts.push([next, 0]);
          return put(Buffer.from(next), to, room);
        },
        test: (/** @type {number} */ number, /** @type {number} */ at) => tests[number](at),
        found: () => { counts[counts.length - 1][1] += 1; },
      },
    },
    main(/** @type {any} */ exports) {
      exports.run();
      for (const [expression, count] of counts) console.log(`${expression}: ${count}`);
    },
  };
}
