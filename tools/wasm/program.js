// The program in its module of WebAssembly: what it prints, says and ends with, by its words and what it reads.

// It ends by `_exit`, from which nothing returns.
class Ended extends Error {
  constructor(status) { super("the program ended"); this.status = status; }
}
const HOST = { env: { _exit(status) { throw new Ended(status); }, abort() { throw new RangeError("the program stopped"); } } };

function statusOf(run) {
  try {
    run();
  } catch (fault) {
    if (fault instanceof Ended) return fault.status;
    throw fault;
  }
  throw new RangeError("the program goes on behind its end");
}
// Runs it once, in an instance of its own that was made with HOST, whose memory goes with it.
function ran({ exports }, words, input) {
  const put = (bytes) => {
    const at = exports.superpager_room(BigInt(bytes.length + 1));
    if (!at) throw new RangeError("there is no memory for what the program reads");
    new Uint8Array(exports.memory.buffer, Number(at), bytes.length).set(bytes);
    return [at, BigInt(bytes.length)];
  };
  const told = (stream) => {
    const at = Number(exports.superpager_told(stream)), length = Number(exports.superpager_told_length(stream));
    return new Uint8Array(exports.memory.buffer, at, length).slice();
  };
  const given = [...put(new TextEncoder().encode(["superpager", ...words].map((word) => `${word}\0`).join(""))), ...put(input)];
  const begun = performance.now(), status = statusOf(() => exports.superpager_run(...given)), took = performance.now() - begun;
  return { status, printed: told(1), said: told(2), took, memory: exports.memory.buffer.byteLength };
}
