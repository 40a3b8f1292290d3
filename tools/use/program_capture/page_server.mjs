/** Serves the folder of a page on 127.0.0.1. */
import fs from 'node:fs';
import http from 'node:http';
import path from 'node:path';

/** @type {Map<string, string>} */
const TYPES = new Map([
  ['.html', 'text/html; charset=utf-8'], ['.htm', 'text/html; charset=utf-8'], ['.js', 'text/javascript'],
  ['.mjs', 'text/javascript'], ['.css', 'text/css'], ['.json', 'application/json'], ['.wasm', 'application/wasm'],
  ['.svg', 'image/svg+xml'], ['.png', 'image/png'], ['.jpg', 'image/jpeg'],
]);
const OTHER_TYPE = 'application/octet-stream';

/**
 * The file of a request, or null if it is none of the folder.
 * @param {string} folder
 * @param {string} url
 * @returns {string | null}
 */
function requestedFile(folder, url) {
  try {
    const { pathname } = new URL(url, 'http://127.0.0.1');
    let file = fs.realpathSync(path.join(folder, path.normalize(decodeURIComponent(pathname))));
    if (fs.statSync(file).isDirectory()) file = path.join(file, 'index.html');
    return fs.statSync(file).isFile() && file.startsWith(folder + path.sep) ? file : null;
  } catch {
    return null;
  }
}

/**
 * @param {string} folder
 * @param {any} request
 * @param {any} response
 */
function answer(folder, request, response) {
  if (request.url === '/favicon.ico') {
    response.writeHead(204).end();
    return;
  }
  const file = requestedFile(folder, request.url);
  if (file === null) {
    response.writeHead(404, { 'content-type': 'text/plain' }).end('there is no such file\n');
    return;
  }
  const type = TYPES.get(path.extname(file).toLowerCase()) ?? OTHER_TYPE;
  response.writeHead(200, { 'content-type': type, 'cache-control': 'no-store' });
  fs.createReadStream(file).on('error', () => response.destroy()).pipe(response);
}

/**
 * Serves the folder of `file`. Gives the address of the file, and how to end.
 * @param {string} file
 * @returns {Promise<{url: string, close: () => void}>}
 */
export async function pageServer(file) {
  const real = fs.realpathSync(path.resolve(file));
  const folder = path.dirname(real);
  const server = http.createServer((/** @type {any} */ request, /** @type {any} */ response) =>
    answer(folder, request, response));
  await new Promise(resolve => { server.listen(0, '127.0.0.1', () => resolve(null)); });
  const close = () => {
    server.closeAllConnections();
    server.close();
  };
  return { url: `http://127.0.0.1:${server.address().port}/${encodeURIComponent(path.basename(real))}`, close };
}
