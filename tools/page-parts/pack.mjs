// A run as letters that an address may have: its texts as JSON, compressed, in the alphabet of addresses.

/** @typedef {{name: string, script: string, schedule: string, trace: string}} Texts */

// Compilers that are older than these two classes do not know them.
const {CompressionStream: Packing, DecompressionStream: Unpacking} = /** @type {any} */ (globalThis);

/** All bytes that come out of a stream into which these go.
 * @param {Uint8Array} bytes @param {any} through @returns {Promise<Uint8Array>} */
async function streamed(bytes, through) {
  return new Uint8Array(await new Response(new Blob([bytes]).stream().pipeThrough(through)).arrayBuffer());
}

/** @param {Texts} texts @returns {Promise<string>} */
export async function packed(texts) {
  if (!Packing) return "";
  const bytes = await streamed(new TextEncoder().encode(JSON.stringify(texts)), new Packing("deflate-raw"));
  let letters = "";
  for (const byte of bytes) letters += String.fromCharCode(byte);
  return btoa(letters).replace(/\+/g, "-").replace(/\//g, "_").replace(/=+$/, "");
}

/** The run that such letters hold, or null where they hold none.
 * @param {string} text @returns {Promise<Texts | null>} */
export async function unpacked(text) {
  try {
    const letters = atob(text.replace(/-/g, "+").replace(/_/g, "/")), bytes = Uint8Array.from(letters, letter => letter.charCodeAt(0));
    const told = JSON.parse(new TextDecoder().decode(await streamed(bytes, new Unpacking("deflate-raw"))));
    const parts = [told.name, told.script, told.schedule, told.trace].map(String);
    return {name: parts[0], script: parts[1], schedule: parts[2], trace: parts[3]};
  } catch (error) {
    return null;
  }
}
