// A link that is a program: `#` and the deflated text in base64url.

async function through(stream, bytes) {
  return new Uint8Array(await new Response(new Blob([bytes]).stream().pipeThrough(stream)).arrayBuffer());
}

export async function packed(text) {
  const bytes = await through(new CompressionStream('deflate'), new TextEncoder().encode(text));
  let out = '';
  for (const it of bytes) out += String.fromCharCode(it);
  return btoa(out).replaceAll('+', '-').replaceAll('/', '_').replace(/=+$/, '');
}

// The text of a link; it fails where the link has none.
export async function unpacked(hash) {
  const plain = atob(hash.replaceAll('-', '+').replaceAll('_', '/'));
  const bytes = await through(new DecompressionStream('deflate'), Uint8Array.from(plain, it => it.charCodeAt(0)));
  if (bytes.length > 1 << 20) throw new Error('too long');
  return new TextDecoder('utf-8', { fatal: true }).decode(bytes);
}
