// The way to the server: a WebSocket to the program that serves this page.

/** Why a connection has ended, by the code of its close; none if the program itself is gone. */
const WHY = {
  1000: 'The server has ended the connection.',
  1001: 'fibs-page has ended, or took this page for asleep.',
  4001: 'The server can\'t be reached.',
  4002: 'The connection to the server broke.',
};

/** The bytes of a text whose characters are bytes. */
export const bytesOf = (text) => Uint8Array.from(text, (character) => character.charCodeAt(0));

/** A connection that begins. `opened()` is called once, `heard(bytes)` for each piece, and last `closed(why)`. */
export const connectionOf = ({ opened, heard, closed }) => {
  const address = `${location.origin.replace(/^http/, 'ws')}/fibs`;
  const socket = new WebSocket(address, ['fibs', location.hash.slice(1) || 'none']);
  socket.binaryType = 'arraybuffer';
  let none = 'fibs-page does not answer, or this is not the address that it printed.';
  socket.addEventListener('open', () => { none = 'fibs-page is gone.'; opened(); });
  socket.addEventListener('message', ({ data }) => heard(new Uint8Array(data)));
  socket.addEventListener('close', ({ code, reason }) => (
    closed(code === 4001 && reason ? `There is ${reason}.` : WHY[code] ?? none)));
  return { send: (text) => socket.send(bytesOf(text)), end: () => socket.close(1000) };
};
