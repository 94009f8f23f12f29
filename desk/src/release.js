// Which release a firmware's image, an archive or a page is of: by the mark that stays in whatever is linked with the call
// hutplan_release.

const MARK = /hutplan release (\d{4}) by Yerkozan/g;

/// The bytes of a file of Intel HEX, in the order of its lines; null of any other text.
function bytesInHex(text) {
  const lines = text.split(/\r?\n/).filter(line => line !== '');
  if (lines.length === 0 || !lines.every(line => /^:(?:[\dA-F]{2}){5,}$/i.test(line))) return null;
  return lines.filter(line => line.slice(7, 9) === '00').map(line => line.slice(9, -2))
    .join('').replace(/../g, two => String.fromCharCode(parseInt(two, 16)));
}

/// The numbers of the releases whose marks are in some bytes, each once, in rising order.
export function releasesIn(bytes) {
  const text = new TextDecoder('latin1').decode(bytes);
  const found = Array.from((bytesInHex(text) ?? text).matchAll(MARK), ([, digits]) => Number(digits));
  return [...new Set(found)].sort((a, b) => a - b);
}

/// What is told of an image with such marks, by the release that the page is of.
export function tellRelease(name, releases, own) {
  if (releases.length > 1) return `${name} has the marks of several releases of hutplan: ${releases.join(', ')}.`;
  const [release] = releases;
  const beside = release === own ? 'the release of this page' : `this page is of release ${own}`;
  return `${name} has release ${release} of hutplan in it; ${beside}.`;
}
