// The program's thread: it reads files, calls the proved program on bytes, and keeps nothing
// between two tasks but the module.

const FAULT = 2, REPORT_ROOM = 1 << 20, MADE_ROOM = 1 << 22, SAID_EVERY = 200, MOST_LINES = 1 << 21;
const NO_MEMORY = 1, KINDS = ["", "solution", "unsolvable"], OUTCOME = 9, LINE = 13, RECORD = 7,
    MOST_LEVELS = 10000;
const SINCE = "are left out, since there are answers",
    LEFT_OUT = `The solutions beside the levels ${SINCE}`;
const NO_ANSWERS = "sokoban-answers 1\n", NO_LEVEL = "No level is found.";
const WHAT_ROWS_ARE = "A row has a wall # and no other characters than @ + $ * . - _ and blanks.";
// the words of a verdict in numbers: why a level, a letter or a line is refused
const WHYS = " size player box goals open letter wall blocked case syntax count board seed goals"
    .split(" ");
// the module, how long the program ran in this task, and the most memory that it took
let module, took, memory;

// what ends a task with a message to the user
class Fault extends Error {}

// One run's memory. It is given back with the whole instance, since WebAssembly can't shrink it.
class Machine {
    static async start() {
        const machine = new Machine();
        machine.calls = (await WebAssembly.instantiate(module)).exports;
        machine.outcome = machine.take(8 * LINE);
        return machine;
    }
    take(length) {
        const place = this.calls.take(length) >>> 0;
        if (!place) throw new Error("out of memory");
        return place;
    }
    bytes(place, length) {
        return new Uint8Array(this.calls.memory.buffer, place, length);
    }
    put(bytes) {
        const place = this.take(bytes.length);
        this.bytes(place, bytes.length).set(bytes);
        return [place, bytes.length];
    }
    numbers(count, place = this.outcome) {
        const view = new DataView(this.calls.memory.buffer);
        return Array.from({ length: count },
            (_, i) => Number(view.getBigUint64(place + 8 * i, true)));
    }
    // where the levels of a text are, by the place and the length of its bytes
    spans(words, room = MOST_LEVELS) {
        const place = this.take(16 * room), count = this.calls.levels(...words, place, room) >>> 0;
        if (count > room) return this.spans(words, count);
        const numbers = this.numbers(2 * count, place);
        return Array.from({ length: count },
            (_, i) => ({ at: numbers[2 * i], end: numbers[2 * i + 1] }));
    }
    // The records of an answers text to this number of levels, by the place and the length of its
    // bytes: kind, line of the body and spans, by level.
    records(words, levels, room = Math.min(levels, MOST_LEVELS)) {
        const place = this.take(8 * RECORD * room);
        if (this.calls.records(...words, levels, place, room, this.outcome) === FAULT)
            throw new Fault(this.fault());
        const count = this.numbers(OUTCOME)[6], numbers = this.numbers(RECORD * count, place);
        return new Map(Array.from({ length: count }, (_, i) => {
            const [level, kind, line, at, body, bodyEnd, end] =
                numbers.slice(RECORD * i, RECORD * (i + 1));
            return [level, { kind: KINDS[kind], line, at, body, bodyEnd, end }];
        }));
    }
    // calls the program until the text has room; returns its status, its text, and its numbers
    text(name, words, room) {
        for (;;) {
            const place = this.take(room), began = performance.now();
            const status = this.calls[name](...words, place, room, this.outcome);
            took += performance.now() - began;
            memory = Math.max(memory, this.calls.memory.buffer.byteLength);
            const numbers = this.numbers(OUTCOME);
            if (status === FAULT) throw new Fault(this.fault());
            if (numbers[0] <= room)
                return { status, bytes: this.bytes(place, numbers[0]).slice(), numbers };
            room = numbers[0];
        }
    }
    fault() {
        const place = this.take(64);
        return textOf(this.bytes(place, this.calls.fault(this.outcome, place, 64)));
    }
    // The verdict on one level with one record, in the words of the report after the level's
    // number. `lines` has the line numbers of the body.
    judged(rows, kind, body, lines) {
        const fault = this.calls.judge(...this.put(rows), KINDS.indexOf(kind), ...this.put(body),
            this.outcome);
        const [status, why, moves, pushes, changes, patterns, cells, boxes, number, line, column,
            row, letter] = this.numbers(LINE);
        const at = `refused line ${lines[line - 1]}`,
            push = `${column},${row} ${String.fromCharCode(letter)}`;
        if (fault) return fault === NO_MEMORY ? "" : `fault ${fault}`;
        return ["", `solved moves ${moves} pushes ${pushes} changes ${changes}`,
            `unsolvable patterns ${patterns}`, `unsolvable zone ${cells}`,
                `refused board ${WHYS[why]}`,
            `refused move ${number} ${WHYS[why]}`, `refused unsolved ${boxes}`,
                `${at} ${WHYS[why]}`,
            "refused start", `${at} push ${push}`, `${at} leak ${push}`, `${at} fits`][status];
    }
}

// ---- reading

// The bytes of a file, or of what is typed, up to one more than the limit, since the program itself
// refuses longer texts.
async function bytesIn(source, most = MOST_BYTES + 1) {
    if (typeof source === "string") return new TextEncoder().encode(source);
    try {
        return new Uint8Array(await source.slice(0, most).arrayBuffer());
    } catch (error) {
        throw new Fault(`cannot read ${source.name}: if it was changed, drop it again; if it is a `
            + "folder, drop its files "
            + `(${error.message})`);
    }
}

// The bytes of answers without a mark before their first line, which the program refuses, and in
// UTF-8 if they are in UTF-16 or UTF-32. Other bytes stay as they are, since what is saved of them
// has to be what was given.
function unmarked(bytes, name, said) {
    const { text, encoding } = readBytes(bytes.subarray(0, 64)),
        isWide = encoding.startsWith("utf-"), isMarked = bytes[0] === 0xef;
    if (!HEADER.test(text) || !isWide && !isMarked) return bytes;
    const form = isWide ? `is ${encoding}` : "begins with a byte order mark";
    said.push({ place: name,
        words: `${form}, which the program refuses: save the answers from here for it`,
        isNote: true });
    return isWide ? bytesOf(utf8(readBytes(bytes).text)) : bytes.subarray(3);
}

// a row that isn't a line of walls, which would part solutions
const HAS_PIECES = inLines("[-_ ]*#[-#_ ]*[@+$*.][-#@+$*._ ]*");

// The kind of a file: answers by their first line, what was made from levels, a list of letters
// without a level, or levels.
async function kindOf(file) {
    if (HEADER.test(readBytes(await bytesIn(file, 256)).text)) return "answers";
    const bytes = await bytesIn(file);
    if (isMade(bytes)) return "made";
    if (HAS_PIECES.test(textOf(bytes))) return "levels";
    const parts = await partsOf(file.name, bytes);
    parts.forEach(findRows);
    return !parts.some(({ lines }) => lines.some(({ row }) => row))
        && parts.some(({ lines }) => groupsIn(lines).length) ? "list" : "levels";
}

// The kinds of files that came together: answers also by their names, and what was made from levels
// only beside levels.
async function kindsOf(files) {
    const copies = copiesIn(files.map(({ name }) => name)), kinds = [];
    for (const file of files) kinds.push(copies.includes(file.name) ? "made" : await kindOf(file));
    const named = files.findIndex(({ name }) => /answers/i.test(name));
    if (files.length === 2 && !kinds.includes("answers") && named >= 0) kinds[named] = "answers";
    return kinds.includes("levels") ? kinds : kinds.map(it => it === "made" ? "levels" : it);
}

function linesIn(bytes) {
    let count = 0;
    for (let at = bytes.indexOf(10); at >= 0; at = bytes.indexOf(10, at + 1)) count++;
    return count;
}

// The levels and answers of sources. Without answers, or if no line is a row, the levels are read
// in all forms.
async function textsOf({ levels: file, answers: answersFile, lists, text: field, names }, tell) {
    // The text may have both. With a file of levels it counts if it has answers alone.
    const typed = parted(utf8(field)), whole = file ? await bytesIn(file) : bytesOf(typed.levels),
        ofAnswers = [], notes = [];
    const isBoth = file && !answersFile && whole.length <= MOST_BYTES
        && INNER_HEADER.test(textOf(whole));
    const inFile = isBoth ? parted(textOf(whole)) : null,
        levels = isBoth ? bytesOf(inFile.levels) : whole;
    const given = answersFile ? await bytesIn(answersFile) : inFile?.answers
        ?? (!file || !HAS_ROW.test(typed.levels) ? typed.answers : null);
    const answers = given === null ? null
        : unmarked(typeof given === "string" ? bytesOf(given) : given, names[1], ofAnswers);
    const asTheyAre = { levels, answers: answers ?? bytesOf(NO_ANSWERS), names, notes,
        said: ofAnswers };
    if (levels.length > MOST_BYTES) return asTheyAre;
    const isLong = linesIn(levels) > MOST_LINES;
    if (answers && HAS_ROW.test(textOf(levels))) {
        const lines = firstLines(textOf(levels), isOfSolution),
            rows = isLong ? [] : firstLines(textOf(levels), isOtherRow);
        if (lines.length) notes.push(`${LEFT_OUT}: ${fewOf("line", lines)}.`);
        if (rows.length) notes.push(
            `Rows in other forms than '#@ $.#' ${SINCE}: ${fewOf("line", rows)}.`);
        if (lists.length) notes.push(`${LEFT_OUT}: ${lists.map(({ name }) => name).join(", ")}.`);
        return asTheyAre;
    }
    if (isLong) {
        notes.push(`The levels have more than ${MOST_LINES} lines, so they are read as plain rows, `
            + "and no solution is looked for.");
        return asTheyAre;
    }
    const parts = await partsOf(names[0], levels);
    for (const it of lists) parts.push(...await partsOf(it.name, await bytesIn(it)));
    const machine = await Machine.start(), spansOf = it => machine.spans(machine.put(bytesOf(it)));
    const { text, levels: found, answers: made, isSame, taken, said } =
        readParts(parts, spansOf, tell);
    said.push(...ofAnswers);
    if (!found.length && !said.length) said.push({ place: "", words: WHAT_ROWS_ARE });
    if (!found.length && !answers) throw Object.assign(new Fault(NO_LEVEL), { said });
    if (!found.length) return { levels, answers, names, said, notes: [NO_LEVEL] };
    if (!answers) notes.push(
        `${many(taken, "solution")} found for ${many(found.length, "level")}.`);
    else if (taken) notes.push(`${LEFT_OUT}: of ${many(taken, "level")}.`);
    const own = isSame ? machine.spans(machine.put(levels)) : found;
    return { levels: isSame ? levels : bytesOf(text),
        found: found.map((it, i) => ({ ...it, at: own[i].at, end: own[i].end })),
        answers: answers ?? bytesOf(made),
        names: answers ? names : [names[0], "the solutions in it"], notes, said };
}

// A legal level with a box and a goal more, and the cell of the box: below the last row, where the
// player never comes, or in two corners.
function withDeadBox(rows) {
    if (rows.length < MOST_SIDE) return [[...rows, "#$."], `2,${rows.length + 1}`];
    return [[`$${rows[0].slice(1, MOST_SIDE - 1).padEnd(MOST_SIDE - 2)}.`, ...rows.slice(1)],
        "1,1"];
}

// ---- tasks

async function audited({ levels, answers, names, found, notes, said }, tell) {
    const machine = await Machine.start();
    tell("Auditing");
    const words = machine.put(levels), given = machine.put(answers),
        { status, bytes, numbers } = machine.text("audit", [...words, ...given], REPORT_ROOM);
    const [, count, , , , missing] = numbers;
    const report = textOf(bytes);
    return { levels, answers, names, notes, said, status, report, totals: { count, missing },
        slices: slicesOf({ found: found ?? levelsIn(textOf(levels), machine.spans(words)),
            records: machine.records(given, count), report }) };
}

const tasks = {
    async start({ wasm }) {
        module = await WebAssembly.compile(bytesOf(atob(wasm)));
        return {};
    },
    // tells the files of each drop apart
    async sort({ drops }) {
        const kinds = [];
        for (const files of drops) kinds.push(await kindsOf(files));
        return { kinds };
    },
    async audit(sources, tell) {
        tell("Reading the levels");
        return audited(await textsOf(sources, tell), tell);
    },
    // Adds certificates to the levels without a record, and audits again.
    async make({ levels, answers, names, slices, said }, tell) {
        const machine = await Machine.start(),
            { bytes } = machine.text("make", machine.put(levels), MADE_ROOM);
        const found = slices.flatMap(it => it.found),
            records = it => machine.records(machine.put(it), found.length);
        const { text, added, isRaised } =
            mergedAnswers(textOf(answers), records(answers), textOf(bytes), records(bytes));
        const notes = [added.length ? `Certificates were made for ${fewOf("level", added)}.`
            : "No certificate was made: for the other levels without an answer, that takes a "
                + "search."];
        if (isRaised) notes.push(
            "The answers begin with 'sokoban-answers 2' now, since a made one is a zone: zones "
            + "of other records count too.");
        return audited({ levels, answers: bytesOf(text), names, found, notes, said }, tell);
    },
    // The dead squares of a level. The program lists all of them if a box is on one, so a box on
    // one is added, out of the player's reach.
    async dead({ rows }) {
        const [level, added] = withDeadBox(rows), machine = await Machine.start();
        const { bytes } = machine.text("make", machine.put(bytesOf(level.join("\n"))), MADE_ROOM);
        const made = textOf(bytes),
            cells = [...made.matchAll(/^pattern ([0-9]+,[0-9]+) @ \*$/gm)].map(([, cell]) => cell);
        if (!cells.includes(added)) throw new Error("the program lists no dead squares");
        return { cells: cells.filter(cell => cell !== added) };
    },
    // The verdict on rows and a record that are drawn, and the record's lines.
    async judged({ rows, kind, bytes, first, body = bodyIn(textOf(bytes), first) }) {
        const machine = await Machine.start(),
            lines = bytesOf(body.map(([, line]) => `${line}\n`).join(""));
        return { line: machine.judged(bytesOf(rows.join("\n")), kind, lines,
            body.map(([number]) => number)), slices: bytes ? slicesOfBody(body, kind) : [] };
    },
    // The page of a result, to keep. No text may end the block of its data: '<' is escaped.
    async page({ parts: [before, after], result }) {
        const work = dataOf(result);
        let step = work.next();
        while (!step.done) step = work.next();
        const data = JSON.stringify(step.value).replace(/</g, "\\u003c");
        return { page: new Blob([before, data, after], { type: "text/html;charset=utf-8" }) };
    },
};

async function perform({ id, task, ...words }) {
    let told = 0;
    const tell = stage => {
        if (performance.now() - told < SAID_EVERY) return;
        told = performance.now();
        postMessage({ id, stage });
    };
    try {
        took = memory = 0;
        const { slices = [], ...said } = await tasks[task](words, tell);
        for (const slice of slices) postMessage({ id, slice });
        postMessage({ id, ...said, took, memory },
            [said.levels, said.answers].filter(it => it).map(({ buffer }) => buffer));
    } catch (error) {
        if (error instanceof Fault)
            postMessage({ id, fault: error.message, said: error.said ?? [], took, memory });
        else postMessage({ id, error: String(error?.message ?? error), name: error?.name ?? "" });
    }
}

// One task after the other: a task waits at times, and the next one must not come between.
let last = Promise.resolve();
onmessage = ({ data }) => last = last.then(() => perform(data));
