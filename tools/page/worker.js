// Runs in a worker: one instance of the module a call, so that no call sees what another one left behind.
const MOST_LINES = 2000, MOST_DRAWN = 100000;
let module;

const bytesOf = async (base64) => {
  const packed = Uint8Array.from(atob(base64), (it) => it.charCodeAt(0));
  const stream = new DecompressionStream("gzip"), writer = stream.writable.getWriter();
  // Not by a Blob: in WebKit the worker of a page that is a file can't read one.
  writer.write(packed).then(() => writer.close()).catch(() => {});
  return new Uint8Array(await new Response(stream.readable).arrayBuffer());
};

/** The proved call, in a memory of its own. The words, the text, two lengths, err and out lie behind one another. */
function call(words, text, room) {
  const { memory, gvr_answer } = new WebAssembly.Instance(module, {}).exports;
  const given = new TextEncoder().encode(words.join("\n"));
  const errRoom = 4096, lengths = 16;
  const whole = given.length + text.length + room + errRoom + lengths + 64;
  const at = memory.grow(Math.ceil(whole / 65536)) * 65536;
  const textAt = at + given.length, lengthsAt = (textAt + text.length + 15) & ~15;
  const errAt = lengthsAt + lengths, outAt = errAt + errRoom;
  new Uint8Array(memory.buffer, at, given.length).set(given);
  new Uint8Array(memory.buffer, textAt, text.length).set(text);
  const numbers = [at, given.length, textAt, text.length, outAt, room, errAt, errRoom, lengthsAt].map(BigInt);
  const status = gvr_answer(...numbers);
  // The call may have grown the memory, so its bytes are looked at anew.
  const [outLength, errLength] = [...new BigUint64Array(memory.buffer, lengthsAt, 2)].map(Number);
  const out = new Uint8Array(memory.buffer, outAt, outLength).slice();
  return { status, out, err: new TextDecoder().decode(new Uint8Array(memory.buffer, errAt, errLength).slice()) };
}

/** How many lines there are, the first ones, and where there are more, the last one. A line that is cut is none. */
function linesOf(out, most) {
  let count = 0, end = 0, shown = 0, last = 0;
  for (let at = out.indexOf(10); at >= 0; at = out.indexOf(10, at + 1)) {
    last = end;
    end = at + 1;
    if (++count <= most) shown = end;
  }
  const text = (from, to) => new TextDecoder().decode(out.subarray(from, to));
  return { count, lines: text(0, shown).split("\n").slice(0, -1), last: count > most ? text(last, end - 1) : "" };
}

/** The picture of a trace that is not too long, else nothing. */
function pictureOf(out) {
  const { count, lines } = linesOf(out, MOST_DRAWN);
  return count > 0 && count <= MOST_DRAWN && lines.every(isTraceLine) ? drawTrace(lines) : "";
}

/** Which lines of the scenario the lines are of; nothing where a function is too long to be followed. */
function sourcesIn(text, lines) {
  try {
    return sourcesOf(new TextDecoder().decode(text), lines);
  } catch (fault) {
    if (fault instanceof RangeError) return [];
    throw fault;
  }
}

onmessage = async ({ data }) => {
  if (data.base64) {
    try {
      module = await WebAssembly.compile(await bytesOf(data.base64));
      postMessage({ ready: true });
    } catch (fault) {
      postMessage({ fault: String(fault) });
    }
    return;
  }
  try {
    const began = performance.now();
    const said = call(data.words, data.text, data.room);
    const time = performance.now() - began;
    const shown = linesOf(said.out, MOST_LINES), isRun = data.words[0] === "run";
    const more = isRun ? { svg: pictureOf(said.out), sources: sourcesIn(data.text, shown.lines) } : { svg: "", sources: [] };
    postMessage({ id: data.id, ...said, time, ...more, ...shown }, [said.out.buffer]);
  } catch (fault) {
    postMessage({ id: data.id, fault: String(fault) });
  }
};
