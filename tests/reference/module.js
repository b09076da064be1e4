// Calls the page's module for tests: node module.js PAGE. A request is a line, a JSON list of the command, the lengths of its texts, and the
// number of a level for 'dead', and then the bytes of the texts. The answer is a line, a JSON list of the status and the length of a text,
// and that text: the result, or the fault. Each request gets a machine of its own, as in the page.
const { readFileSync, readSync, writeSync } = require("fs");
const FAULT = 2, OUTCOME = 9;
const page = readFileSync(process.argv[2], "latin1");
const compiled = new WebAssembly.Module(Buffer.from(/id="wasm">([^<]*)</.exec(page)[1], "base64"));

function take(length) {
    const all = Buffer.alloc(length);
    for (let at = 0; at < length;) {
        const count = readSync(0, all, at, length - at);
        if (!count) process.exit();
        at += count;
    }
    return all;
}

function line() {
    let text = "";
    for (;;) {
        const next = take(1).toString("latin1");
        if (next === "\n") return JSON.parse(text);
        text += next;
    }
}

function put(status, bytes) {
    const all = Buffer.concat([Buffer.from(JSON.stringify([status, bytes.length]) + "\n"), bytes]);
    for (let at = 0; at < all.length;) at += writeSync(1, all, at);
}

function answer([command, lengths, number]) {
    const { exports } = new WebAssembly.Instance(compiled), given = [], outcome = exports.take(8 * OUTCOME) >>> 0;
    const bytes = (place, length) => Buffer.from(exports.memory.buffer, place, length);
    for (const text of lengths.map(take)) {
        const place = exports.take(text.length) >>> 0;
        text.copy(bytes(place, text.length));
        given.push(place, text.length);
    }
    if (command === "dead") given.push(number);
    for (let room = 4096;;) {
        const place = exports.take(room) >>> 0, status = exports[command](...given, place, room, outcome);
        if (status === FAULT) {
            const words = exports.take(64) >>> 0;
            return put(status, Buffer.from(bytes(words, exports.fault(outcome, words, 64))));
        }
        const length = Number(new DataView(exports.memory.buffer).getBigUint64(outcome, true));
        if (length <= room) return put(status, Buffer.from(bytes(place, length)));
        room = length;
    }
}

for (;;) answer(line());
