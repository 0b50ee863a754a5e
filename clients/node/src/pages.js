// The files of a folder over HTTP: pages, and the images and fonts to which their CSS refers.

import { createReadStream } from 'node:fs';
import { stat } from 'node:fs/promises';
import path from 'node:path';

/** @type {Record<string, string>} */
const TYPES = {
  '.html': 'text/html; charset=utf-8',
  '.htm': 'text/html; charset=utf-8',
  '.css': 'text/css; charset=utf-8',
  '.js': 'text/javascript; charset=utf-8',
  '.mjs': 'text/javascript; charset=utf-8',
  '.json': 'application/json; charset=utf-8',
  '.map': 'application/json; charset=utf-8',
  '.txt': 'text/plain; charset=utf-8',
  '.xml': 'application/xml',
  '.svg': 'image/svg+xml',
  '.png': 'image/png',
  '.jpg': 'image/jpeg',
  '.jpeg': 'image/jpeg',
  '.gif': 'image/gif',
  '.webp': 'image/webp',
  '.avif': 'image/avif',
  '.ico': 'image/x-icon',
  '.woff': 'font/woff',
  '.woff2': 'font/woff2',
  '.ttf': 'font/ttf',
  '.otf': 'font/otf',
  '.mp4': 'video/mp4',
  '.webm': 'video/webm',
  '.wasm': 'application/wasm',
};

/**
 * The file that an address means in a folder: a folder's is its `index.html`. Names that begin with `.` mean none, so that nothing above the
 * folder is reached, and no file that is hidden.
 * @param {string} folder
 * @param {string} address the path of a URL, still encoded
 * @returns {Promise<{ file: string, bytes: number } | null>} null where there is no such file
 */
export async function fileOf(folder, address) {
  let segments;
  try {
    segments = address.split('/').filter(Boolean).map(decodeURIComponent);
  } catch {
    return null;
  }
  if (segments.some((it) => it.startsWith('.') || /[/\\\0]/.test(it))) return null;
  const wanted = path.join(folder, ...segments);
  for (const file of [wanted, path.join(wanted, 'index.html')]) {
    const found = await stat(file).catch(() => null);
    if (found?.isFile()) return { file, bytes: found.size };
  }
  return null;
}

/**
 * Answers with a file. One that can't be read any more breaks the answer off.
 * @param {import('node:http').ServerResponse} response
 * @param {{ file: string, bytes: number }} found
 * @param {boolean} isHead whether just the head of the answer is wanted
 */
export function sendFile(response, { file, bytes }, isHead) {
  const type = TYPES[path.extname(file).toLowerCase()] ?? 'application/octet-stream';
  response.writeHead(200, { 'Content-Type': type, 'Content-Length': bytes, 'Cache-Control': 'no-cache' });
  if (isHead) {
    response.end();
    return;
  }
  // No more than was told, where the file grows meanwhile.
  const stream = createReadStream(file, { end: Math.max(bytes - 1, 0) });
  stream.on('error', () => response.destroy());
  if (bytes === 0) response.end();
  else stream.pipe(response);
}
