#!/usr/bin/env node
// tests/page/module.js PAGE audit LEVELS ANSWERS | make LEVELS | dead LEVELS N: runs the module of a page, sokoaudit.html, as the program runs.
"use strict";
const { readFileSync, writeSync } = require("fs");

const [page, command, levels, more] = process.argv.slice(2), ROOM = 1 << 22, FAULT = 2;
const wasm = Buffer.from(readFileSync(page, "utf8").match(/id="wasm">([^<]*)</)[1], "base64");
const calls = new WebAssembly.Instance(new WebAssembly.Module(wasm)).exports;
const bytes = (place, length) => new Uint8Array(calls.memory.buffer, place, length);

// puts the bytes of a file into the module's memory
function put(name) {
    const data = readFileSync(name), place = calls.take(data.length) >>> 0;
    bytes(place, data.length).set(data);
    return [place, data.length];
}

const words = [...put(levels), ...command === "audit" ? put(more) : command === "dead" ? [Number(more)] : []];
const place = calls.take(ROOM) >>> 0, outcome = calls.take(128) >>> 0, status = calls[command](...words, place, ROOM, outcome);
if (status === FAULT) {
    const said = calls.take(64) >>> 0;
    writeSync(2, Buffer.concat([bytes(said, calls.fault(outcome, said, 64)), Buffer.from("\n")]));
} else {
    writeSync(1, bytes(place, Number(new DataView(calls.memory.buffer).getBigUint64(outcome, true))));
}
process.exitCode = status;
