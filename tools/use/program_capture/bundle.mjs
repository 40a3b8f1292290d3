/**
 * Makes one script of a module of this repository and all that it imports, for pages and their workers. It knows the
 * forms of imports and exports that these modules have, and refuses others.
 */
import fs from 'node:fs';

const IMPORT = /^import \{([^}]*)\} from '(\.[^']*)';$/gm;
const DECLARATION = /^export ((?:async )?function\*?|class|const) (\w+)/gm;
const LIST = /^export \{([^}]*)\}(?:\s+from '(\.[^']*)')?;$/gm;

/** @param {string} list */
const names = list => list.split(',').map(name => name.trim()).filter(name => name !== '');

/**
 * The text of a module as a function's body that gives its exports.
 * @param {URL} file
 * @param {(url: URL) => number} place gives the place of a module that it imports
 */
function body(file, place) {
  /** @type {string[]} */
  const exported = [];
  const text = /** @type {string} */ (fs.readFileSync(file, 'utf8'))
    .replace(IMPORT, (_, list, from) => {
      const renamed = names(list).map(name => name.replace(/ as /, ': ')).join(', ');
      return `const { ${renamed} } = modules[${place(new URL(from, file))}];`;
    })
    .replace(DECLARATION, (_, kind, name) => {
      exported.push(name);
      return `${kind} ${name}`;
    })
    .replace(LIST, (_, list, from) => {
      exported.push(...names(list));
      if (from === undefined) return '';
      return `const { ${names(list).join(', ')} } = modules[${place(new URL(from, file))}];`;
    });
  const left = /^(?:import|export)\b.*/m.exec(text);
  if (left !== null) throw new Error(`${file}: a form that a bundle does not know: ${left[0]}`);
  return `${text}\nreturn { ${exported.join(', ')} };`;
}

/**
 * The script, as an expression that gives the exports of `entry`.
 * @param {URL} entry
 */
export function bundle(entry) {
  /** @type {Map<string, number>} */
  const places = new Map();
  /** @type {string[]} */
  const parts = [];
  const place = (/** @type {URL} */ url) => {
    const found = places.get(url.href);
    if (found !== undefined) return found;
    const text = body(url, place);
    places.set(url.href, parts.length);
    parts.push(`modules.push((() => {\n${text}\n})());`);
    return parts.length - 1;
  };
  const last = place(entry);
  return `(() => {\nconst modules = [];\n${parts.join('\n')}\nreturn modules[${last}];\n})()`;
}
