/**
 * Servers by which a way through is found, as they are typed in.
 * @module
 */

/** STUN and TURN servers of a text: stun:HOST, or turn:USER:PASSWORD@HOST, apart by spaces. */
export function serversOf(text) {
  const made = (word) => {
    const [, scheme, username, credential, host] = /^(stuns?|turns?):(?:([^:@]+):([^@]+)@)?(.+)$/.exec(word) ?? [];
    if (!host) return null;
    return { urls: `${scheme}:${host}`, ...(username && { username, credential }) };
  };
  return text.split(/\s+/).map(made).filter(Boolean);
}
