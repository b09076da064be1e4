// Reads what players keep: levels in many forms of rows, and the letters of their solutions
// wherever they stand. It makes plain rows, and tries letters by playing them: on the level above,
// on the one below, and on every level without a solution. Nothing here decides what counts. The
// program audits what is made here, and what is drawn is judged once more.

const placeOf = (parts, part, number) =>
    [parts.length > 1 || !number ? part.name : "", number ? `line ${number}` : ""].join(" ").trim();

// letters among words that may be a word, and the number of a level before letters
const IS_WORD = /^(?:[lurdLURD][lurd]*|..?)$/, NUMBER = /^\W*(?:\p{L}+\W+){0,3}(\d{1,5})(?!\d)/u;

// The two texts that parts are made into. `said` is what was read with a change, or not at all: {
// place, words, isNote }.
class Reading {
    constructor(parts, spansOf, tell) {
        // of each line of the made level text, what it is made of: { part, number }, and { line }
        // if it is no row
        Object.assign(this, { parts, tell, lines: [], from: [], beside: [], waiting: [], said: [],
            isChanged: false });
        for (const [p, part] of parts.entries()) {
            tell(`Looking for rows in ${part.name}`);
            findRows(part);
            if (p) this.put("");
            for (const it of part.lines) this.putLine(it, part);
            this.putBeside();
            for (const it of part.faults) this.say(part, it.number, it.words, it.isNote);
        }
        this.text = utf8(`${this.lines.join("\n")}\n`);
        this.spans = spansOf(this.text);
        this.levels = levelsIn(this.text, this.spans);
        this.boards = [];
        // of each level, the letters for it, and whether some of them solve it
        this.chosen = this.levels.map(() => []);
        this.isSolved = new Uint8Array(this.levels.length);
        steps = 0;
        this.places = this.levels.map(({ line, at, end }) =>
            ({ first: line - 1, end: line - 1 + linesOf(this.text.slice(at, end)).length }));
    }
    say(part, number, words, isNote = false) {
        this.said.push({ place: placeOf(this.parts, part, number), words, isNote });
    }
    put(line, it) {
        this.lines.push(line);
        this.from.push(it);
    }
    putLine({ row, line, number, starts, isLeftOut }, part) {
        const it = { part, number };
        if (isLeftOut) this.isChanged = true;
        if (isLeftOut) return;
        if (!row || starts) this.putBeside();
        if (starts && this.lines.length && isRow(this.lines.at(-1)))
            this.put("", it), this.isChanged = true;
        const named = row ? null : TITLE_LINE.exec(line);
        const made = row?.rows ?? [named ? `Title: ${named[2]}` : isRow(line) ? `; ${line}` : line];
        // the line that opens a list of rows is no title
        if (!row && /[[{(]["'`]*\s*$|=\s*["'`]+\s*$/.test(line)) this.use([it]);
        this.isChanged ||= made.length > 1 || made[0] !== line;
        const titles = [...row?.titles ?? []];
        for (const text of made) {
            if (row && !text) this.putTitle(titles.shift(), it);
            this.put(text, row ? it : Object.assign(it, { line: text }));
        }
        // a row that begins a level has the title of the whole
        if (row?.begins) this.waiting.push(...titles.map(title =>
            ({ ...it, line: `Title: ${title}`, words: "", isNoTitle: true })));
        else this.putTitle(titles.shift(), it);
        if (row?.rest)
            this.waiting.push({ ...it, line: row.rest, words: row.words, isNoTitle: true });
        if (row?.kind === "beside")
            part.faults.push({ number, words: "what is beside the row was left out",
            isNote: true });
    }
    putTitle(title, it) {
        if (title) this.put(`Title: ${title}`, it);
    }
    // Puts what was beside the rows of a level below it. It is no title.
    putBeside() {
        for (const it of this.waiting.splice(0)) {
            this.beside.push(it);
            this.isUsed = true;
            this.put(isRow(it.line) ? `; ${it.line}` : it.line, it);
        }
    }
    partOf(i) {
        return this.from[this.places[i].first].part;
    }
    boardAt(i) {
        return this.boards[i] ??= boardToTry(
            this.lines.slice(this.places[i].first, this.places[i].end));
    }
    add(i, ...some) {
        this.chosen[i].push(...some);
        if (some.some(({ solution }) => !solution.why)) this.isSolved[i] = 1;
    }

    // says that lines belong to solutions, so that they are no titles
    use(lines) {
        for (const line of lines) line.isUsed = this.isUsed = true;
    }
    // Takes letters from their lines.
    take(pieces) {
        for (const { line, piece } of pieces) (line.taken ??= []).push(piece);
        this.use(pieces.map(({ line }) => line));
    }
    // Whether letters of one line are those of solutions that were taken from it.
    isTaken([{ line, piece }, ...others]) {
        return !others.length
            && !(line.taken ?? []).reduce((left, it) => left.replace(it, () => ""), piece);
    }

    // ---- letters

    // Tries the letters below each level on it. Returns those that solve nothing.
    tryBelow() {
        const loose = [], { places, from, levels } = this;
        for (let i = -1; i < levels.length; i++) {
            this.tell(`Trying the letters of level ${i + 1} of ${levels.length}`);
            const gap = from.slice(i < 0 ? 0 : places[i].end,
                places[i + 1]?.first).filter(it => it?.line !== undefined);
            const left = [], heads = [];
            for (const group of groupsIn(gap))
                for (const it of this.tryGroup(i, group, left, heads)) left.push(it);
            for (const { part, number } of this.chosen[i]?.length === 0 ? heads : []) {
                this.say(part, number, "a heading of a solution without letters that are read");
            }
            if (i < 0 || !this.tryWhole(i, left)) for (const it of left) loose.push(it);
        }
        return loose;
    }
    // Tries a group of letters on the level above it. Returns those that don't solve it.
    tryGroup(i, group, left, heads) {
        const { isHeaded, isSaved, isWords, isTitle, pieces, number, part, odd, heading } = group;
        const none = { found: [],
            failed: [{ number, pieces, solution: { letters: "", why: "no level is above" } }] };
        const { found, failed } = i < 0 ? none : solutionsIn(group, this.boardAt(i));
        if (i >= 0) this.add(i, ...found.map(it => ({ ...it, part, isSaved })));
        while (found[0]?.isFront && left.at(-1)?.number === group.front.number) left.pop();
        if (found.length && heading) this.use([heading]);
        for (const { taken } of found) this.take(taken);
        if (!pieces.length) heads.push(group);
        if (found.length && odd) this.say(part, number, `${odd} were read as letters`, true);
        if (found.length && isTitle)
            this.say(part, number, `the title has letters that solve level ${i + 1}, and `
                + "was taken as its solution too", true);
        const most = (isWords ? 1.5 : 1) * LONG;
        return failed.filter(it => it.pieces.length).map(it =>
            ({ ...it, part, level: i, isWords, odd,
            isSure: !isSaved && (isHeaded || joined(it.pieces).length >= most) }));
    }
    // Tries all letters below a level as one solution, which remarks may part.
    tryWhole(i, left) {
        const alone = left.filter(it => !it.isWords);
        if (this.chosen[i].length || alone.length < 2) return false;
        const solution = played(this.boardAt(i), joined(alone.flatMap(it => it.pieces)));
        if (solution.why) return false;
        this.add(i, { solution, number: alone[0].number, part: alone[0].part });
        for (const { pieces } of alone) this.take(pieces);
        return true;
    }
    // Tries letters, whole, by paragraphs and line by line, on the level below and on all that have
    // no solution. If they solve none and are meant for the level above, it gets them, and the
    // report says what is wrong with them.
    tryElsewhere(it) {
        const whole = { number: it.number, piece: joined(it.pieces), pieces: it.pieces },
            paragraphs = paragraphsOf(it.pieces), above = this.chosen[it.level];
        let isPlaced = false;
        for (const some of it.pieces.length > 1 ? [whole, ...paragraphs.filter(({ pieces }) =>
            pieces.length > 1 && pieces.length < it.pieces.length), ...it.pieces] : [whole]) {
            const isNumbered = this.isNumbered(some.line ?? it.pieces[0].line);
            if (it.isWords && !it.isSure && !isNumbered && IS_WORD.test(some.piece)) continue;
            const found = this.solvedBy(some.piece, it.level, some === whole);
            for (const i of found) {
                this.add(i, { solution: played(this.boardAt(i), some.piece), number: some.number,
                    part: it.part });
                if (it.part === this.partOf(Math.max(0, it.level)))
                    this.say(it.part, some.number, `letters that solve level ${i + 1}`, true);
            }
            if (!found.length) continue;
            this.take(some.pieces ?? [some]);
            isPlaced = true;
            if (some === whole) break;
        }
        const words = `letters that solve no level${steps < MOST_STEPS ? "" : " of those tried"}: `
            + it.solution.why;
        for (const { number, piece, pieces } of isPlaced && it.isSure && !it.isWords
            ? paragraphs : []) {
            if (piece.length >= LONG && !pieces.some(({ line }) => line.taken))
                this.say(it.part, number, words);
        }
        if (!it.isSure || isPlaced || this.isTaken(it.pieces)) return;
        if (above && !above.length && it.solution.letters) above.push(it);
        this.say(it.part, it.number, words);
    }
    // Whether the words of a line begin with the number of a level of its part.
    isNumbered({ line, part }) {
        const number = Number(NUMBER.exec(line.slice(0, 200))?.[1]);
        return number > 0
            && this.levels.filter((_, i) => this.partOf(i) === part).length >= number;
    }
    // The levels without a solution that a piece solves: the one below first, and the one above
    // only if it wasn't tried yet.
    solvedBy(piece, above, isTried) {
        const letters = expanded(piece, MOST_PLAYED), found = [];
        if (letters === null || letters.length > MOST_PLAYED || steps >= MOST_STEPS) return found;
        const bytes = bytesOf(letters), isNew = i => i < this.levels.length && !this.isSolved[i]
            && solves(this.boardAt(i), bytes);
        if (isNew(above + 1)) found.push(above + 1);
        for (const i of this.unsolved()) {
            if (i === above + 1 || i === above && isTried) continue;
            if (steps >= MOST_STEPS) break;
            if (isNew(i)) found.push(i);
        }
        return found;
    }
    // the levels without a solution
    unsolved() {
        if (!this.open || this.open.some(i => this.isSolved[i]))
            this.open = (this.open ?? [...this.levels.keys()]).filter(i => !this.isSolved[i]);
        return this.open;
    }

    // ---- the two texts

    // The answers, with the best solution of each level, and what is to be said of the others.
    answers() {
        const records = [];
        this.taken = 0;
        for (const [i, some] of this.chosen.entries()) {
            const solving = some.filter(({ solution }) => !solution.why),
                own = solving.filter(({ isSaved }) => !isSaved);
            const best = (own.length ? own : solving).reduce((a, b) =>
                isShorter(b.solution, a.solution) ? b : a, solving[0]) ?? some[0];
            if (!best) continue;
            const others = [...new Map(own.map(it => [it.solution.letters, it])).values()].filter(
                it => it.solution.letters !== best.solution.letters);
            records.push(`level ${i + 1}`, "solution", ...best.solution.letters.match(/.{1,70}/gs),
                "end");
            this.taken += solving.length > 0;
            if (others.length) this.say(best.part, best.number,
                `the best solution of level ${i + 1}, ${best.solution.moves} moves, is taken; left `
                + "out: "
                + few(others.map(it => `line ${it.number}, ${it.solution.moves} moves`)), true);
        }
        return ["sokoban-answers 1", ...records, ""].join("\n");
    }
    // Says in which lines words beside rows were no title, no letters that solve the level, and no
    // names of a program.
    sayBeside() {
        const numbers = new Map(this.parts.map(part => [part, []]));
        for (const { part, number, words, isUsed } of this.beside) {
            if (/[\p{L}#]/u.test(isUsed ? words.replace(AMONG_WORDS, "") : words))
                numbers.get(part).push(number);
        }
        for (const [part, some] of numbers) {
            const place = `${this.parts.length > 1 ? `${part.name} ` : ""}${fewOf("line", some)}`;
            if (some.length) this.said.push(
                { place, words: "what is beside the rows is read as text", isNote: true });
        }
    }
    // Whether the bytes of the only part are the level text as they are.
    isSame() {
        const [{ isAlone, encoding, text }] = this.parts;
        return this.parts.length === 1 && isAlone && !this.isChanged
            && /^(?:|Windows-1252)$/.test(encoding) && !isXml(text)
            && !IS_BROKEN.test(text);
    }
    result() {
        for (const i of this.levels.keys()) {
            const { boxes, off } = this.boardAt(i),
                { part, number } = this.from[this.places[i].first];
            if (boxes.length && !off)
                this.say(part, number, `level ${i + 1} is solved as it stands`, true);
        }
        this.sayBeside();
        const answers = this.answers(), isSame = this.isSame(), isOne = this.parts.length === 1;
        if (this.isUsed) this.levels =
            levelsIn(this.text, this.spans, number => {
                const it = this.from[number - 1];
                return it?.isUsed || it?.isNoTitle;
            });
        for (const [i, level] of this.levels.entries()) {
            const { number, part } = this.from[this.places[i].first];
            Object.assign(level, { line: number, file: isOne ? undefined : part.name });
        }
        return { text: this.text, levels: this.levels, answers, isSame, taken: this.taken,
            said: this.said };
    }
}

const isShorter = (a, b) => (a.moves - b.moves || a.pushes - b.pushes) < 0;

// Reads parts: the made level text with its levels as levelsIn gives them, but for the first line
// in the file and the file's name; the made answers; and what is to be said. If the bytes of the
// only part need no change, `isSame` is true. `spansOf` is the program's.
function readParts(parts, spansOf, tell = () => {}) {
    const reading = new Reading(parts, spansOf, tell);
    for (const it of reading.tryBelow()) reading.tryElsewhere(it);
    return reading.result();
}
