"use strict";
// The program's threads. One works for what the user asks for, and one judges what is drawn, so
// that a level opens while a long run goes on.

class Thread {
    worker = null;
    number = 0;
    waiting = new Map();
    // `tell` is given what the thread says while it works
    constructor(tell = () => {}) {
        this.tell = tell;
    }
    get isBusy() {
        return this.waiting.size > 0;
    }
    start() {
        const parts = ["game", "texts",
            "thread"].map(id => document.getElementById(id).textContent);
        const worker = this.worker =
            new Worker(URL.createObjectURL(new Blob(parts, { type: "text/javascript" })));
        worker.onmessage = ({ data: { id, stage, slice, ...said } }) => {
            // nothing waits for what an ended thread says
            const waits = this.waiting.get(id);
            if (!waits) return;
            if (stage) this.tell(stage);
            else if (slice) waits.slices.push(slice);
            else this.answer(id, { ...said, slices: waits.slices });
        };
        worker.onerror = event => {
            event.preventDefault();
            if (worker !== this.worker) return;
            for (const id of this.waiting.keys())
                this.answer(id, { error: event.message || "it didn't start" });
        };
        return this.send("start", { wasm: document.getElementById("wasm").textContent });
    }
    answer(id, said) {
        this.waiting.get(id).resolve(said);
        this.waiting.delete(id);
    }
    send(task, words, moved = []) {
        const id = ++this.number;
        this.worker.postMessage({ id, task, ...words }, moved);
        return new Promise(resolve => this.waiting.set(id, { resolve, slices: [] }));
    }
    // Asks for a task, for which some buffers are handed over. The answer is { isStopped } if the
    // thread was ended before.
    async ask(task, words, moved) {
        if (!this.worker) this.started = this.start();
        const said = this.send(task, words, moved), begun = await this.started;
        return begun.error || begun.isStopped ? { ...begun, isStart: true } : said;
    }
    // Ends what runs. The next task gets a new thread.
    stop() {
        this.worker?.terminate();
        this.worker = null;
        for (const id of this.waiting.keys()) this.answer(id, { isStopped: true });
    }
}

const judge = new Thread(), COPIED_AT_ONCE = 1 << 21;
const pause = () => new Promise(done => setTimeout(done));

// a copy of bytes, made in parts between which the page answers
async function copied(bytes) {
    const copy = new Uint8Array(bytes.length);
    for (let at = 0; at < bytes.length; at += COPIED_AT_ONCE) {
        copy.set(bytes.subarray(at, at + COPIED_AT_ONCE), at);
        await pause();
    }
    return copy;
}

// The program's verdict on rows and a record as they are drawn: { line, body }, the words of the
// report after the level's number, or "" if there is no verdict, and the lines of the record.
async function judged(rows, record) {
    // the page draws what it has first, since a record may be long
    await pause();
    const { kind = "solution", bytes: all, line: first } = record ?? {},
        bytes = all && await copied(all);
    const said = bytes ? await judge.ask("judged", { rows, kind, bytes, first }, [bytes.buffer])
        : await judge.ask("judged", { rows, kind, body: record?.body ?? [] });
    if (said.error) judge.stop();
    return { line: said.line ?? "", body: bytes ? (said.slices ?? []).flat() : record?.body ?? [] };
}

// what a saved page hands to its viewer
globalThis.hooks = { judge: judged };
