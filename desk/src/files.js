// Opening and saving files. A file is a sheet, a text or an image with the calls in it; whatever it is, it gets a sentence.

import { hutOf } from './hut.js';
import { releasesIn, tellRelease } from './release.js';
import { writeText } from './text.js';
import { tellSheet, counted } from './words.js';

/// No sheet and no text of a hut has as many bytes: a full sheet has 22,540, its text some 100,000.
const MOST_BYTES = 1 << 20;

/// An image may be larger: up to so many bytes are searched for a release.
const MOST_IMAGE_BYTES = 1 << 26;

/// Whether bytes are a text: UTF-8 without control characters. A sheet begins with its version, which is one.
function textOf(bytes) {
  try {
    const text = new TextDecoder('utf-8', { fatal: true }).decode(bytes);
    return /[\u0000-\u0008\u000b\u000c\u000e-\u001f]/.test(text) ? null : text.replaceAll('\r\n', '\n');
  } catch {
    return null;
  }
}

/// A text that is no hut's: that of a page, or of an image in Intel HEX or S-records.
const ofAnImage = text => /^\s*(?:<|:[\dA-F]{10}|S\d[\dA-F]{8})/i.test(text);

const SEARCHED = 'An image is searched for its release as ELF, as raw bytes and as Intel HEX, not as S-records and not where it is packed.';

/// What is said of such a text without the mark of a release.
const NO_RELEASE = {
  title: 'No hut and no release in it',
  says: SEARCHED,
  mend: 'Choose the image in one of these forms, or the sheet or the text of a hut.',
};

/// What an image comes to: { says } where a release is in it.
function imageOf(name, bytes, calls) {
  const releases = calls.has('release') ? releasesIn(bytes) : [];
  return releases.length > 0 ? { says: tellRelease(name, releases, calls.release().release) } : null;
}

/// What a file with this name and these bytes comes to: { text, says }, { says } of an image, or { refused: { title, says, mend } }.
export function opened(name, bytes, table, calls) {
  const text = /\.bin$/i.test(name) ? null : textOf(bytes);
  if (text !== null && ofAnImage(text)) return imageOf(name, bytes, calls) ?? { refused: NO_RELEASE };
  if (text !== null) return { text, says: `Opened the text ${name}.` };
  const read = calls.read(bytes);
  if (read.number !== 0) return imageOf(name, bytes, calls) ?? { refused: tellSheet(table, read, bytes) };
  const hut = hutOf(read.words);
  const size = `${counted(hut.nodes.length, 'breaker')}, ${counted(hut.servers.length, 'server')}`;
  return { text: writeText(hut), says: `Opened the sheet ${name}: ${size}.` };
}

/// What is said of a file that is no hut's by its size alone, and `more` of one that was searched for a release.
function tooLarge(size, more = 'An image is searched up to 64 MB.') {
  const says = `It has ${(size / (1 << 20)).toFixed(1)} MB. The largest hut's sheet has 22,540 bytes, and no sheet or text \
above 1 MB is opened. ${more}`;
  return { refused: { title: 'Too large', says, mend: 'Choose the sheet (room.bin) or the text of a hut.' } };
}

/// The same of a file that a person chose, after a look at its size.
export async function openFile(file, table, calls) {
  if (file.size > MOST_IMAGE_BYTES) return tooLarge(file.size);
  try {
    const bytes = new Uint8Array(await file.arrayBuffer());
    if (file.size > MOST_BYTES) return imageOf(file.name, bytes, calls) ?? tooLarge(file.size, `No release was found in it. ${SEARCHED}`);
    return opened(file.name, bytes, table, calls);
  } catch {
    const says = 'The browser could not read it.';
    return { refused: { title: 'Not read', says, mend: 'If it is a folder, choose the file in it.' } };
  }
}

/// Offers bytes or a text as a file.
export function offer(name, content, type) {
  const link = document.createElement('a');
  link.href = URL.createObjectURL(new Blob([content], { type }));
  link.download = name;
  link.click();
  setTimeout(() => URL.revokeObjectURL(link.href), 1000);
}
