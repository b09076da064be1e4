// Finds the letters of solutions in lines, and plays them on boards. Nothing here decides what
// counts: what is found is audited.

const MOST_PLAYED = 1 << 20, MOST_STEPS = 1e8, MOST_PIECES = 2000, MOST_TRIES = 100, TRY = 20,
    LONG = 8;
// a mail may end a line by "=" that goes on in the next one
const LETTERS_ALONE = /^[0-9() \t,;.'"`*-]*[lurdLURD][lurdLURD0-9() \t,;.'"`*-]*=?$/;
const BETWEEN = /[ \t,;.'"`*-]/g, LOOSE = /(?<![\w(])\d+(?=[ \t,;.'"`*-]|$)|(?<!\w)\d+(?=[,;])/g;
// one of several strings with letters in a line
const STRING_OF_LETTERS = /["'`]([lurdLURD0-9()]+)["'`]/g;
const stringsIn = line => [...line.matchAll(STRING_OF_LETTERS)].map(([, it]) => it)
    .filter((it, i, all) => all.length > 1 && /[lurd]/i.test(it));
const AMONG_WORDS =
    /(?<![\p{L}\p{N}])[0-9(]*[lurdLURD][lurdLURD0-9() \t,;.'"`*-]*(?![\p{L}\p{N}])/gu;
const IS_HEAD = new RegExp(
    "solution|lurd\\s*[:=;#([\\d]|\\bmoves(?:\\s*#?\\d+)?(?:\\s*[:=]|\\s+is\\b)\\s*[lurd]"
    + "|answer\\s*[:=]|\\bsoln?\\b|l(?:\u00f6|oe)sung|soluci|solu[c\u00e7]|soluzione|oplossing"
    + "|l\u00f6sning|\u0440\u0435\u0448\u0435\u043d\u0438|\u7b54\u6848|\u89e3", "i");
const IS_PLAIN_HEAD = new RegExp(
    "^\\W*(?:(?:best|shortest|optimal|first|second|my|moves?|push(?:es)?) )*"
    + "(?:solution(?![A-Za-z])|lurd(?=\\s*[:=]))\\s*(?:$|[:=/([#\\-\\d\\]})])", "i");
const IS_SAVED = /^\W*(?:snap\s?shot|saved?(?:\s?game)?|session|reverse|undo|history)(?![a-z])/i;
const IS_REMARK = /solution\s+(?:comment|date|author|time)s?\s*[:=]/i,
    IS_TITLE = /^\W*title\s*[:=]/i;
const SIGNS = "\u2190\u2191\u2192\u2193\u2b05\u2b06\u2b95\u27a1\u2b07";
const ARROWS = Object.fromEntries([...SIGNS].map((it, i) => [it, "lurdlurrd"[i]]));
const IS_ARROW = new RegExp(`[${SIGNS}]`, "g"), IS_ODD = new RegExp(`[${SIGNS}\uff01-\uff5e]`);
// other names of the four steps: the keys of a number pad, the points of the compass, and the keys
// of many games
const ALPHABETS = [
    { words: "the keys of a number pad", letters: { 8: "u", 2: "d", 4: "l", 6: "r" },
        are: /^[2468][2468\s,;.-]*$/ },
    { words: "points of the compass", letters: { n: "u", s: "d", w: "l", e: "r" },
        are: /^[nsew][nsew\s,;.-]*$/i },
    { words: "the keys W, A, S and D", letters: { w: "u", s: "d", a: "l", d: "r" },
        are: /^[wasd][wasd\s,;.-]*$/i },
];

// The letters of a line without what may be between them, or beside them as numbers and brackets.
function packed(text) {
    const whole = text.replace(/^\W*LURD\W+(?=\w)/i, "").replace(/=$/, "")
        .replace(LOOSE, " ").replace(/\([\s\d]*$/,
        "").replace(BETWEEN, "");
    return expanded(whole, MOST_PLAYED)
        ?? (/[()]/.test(whole) ? whole.replace(/[()]/g, "") : whole);
}

// The steps of a line in another alphabet, or null: { piece, words }.
function stepsIn(text) {
    const found = ALPHABETS.find(({ are }) => are.test(text));
    return found ? { words: found.words,
        piece: [...text.toLowerCase()].map(it => found.letters[it] ?? "").join("") } : null;
}

// a line without tags, but with what their attributes say, and without a number in front
const bareLine = line => line.length > LONGEST_LINE ? line
    : narrow(untagged(line.replace(/<[^<>]*>/g,
        tag => `${tag} ${(tag.match(/"[^"]*"/g) ?? []).join(" ")} `)))
        .replace(IS_ARROW, it => ARROWS[it]).replace(/^[>;\s|]*(?:[[(]?\d+[.):\]]\s+)?/,
            "");

// The groups of letters in some lines. Each is { part, number, pieces, front, heading, isHeaded,
// isSaved, isWords, odd }: its first line; its letters line by line, with `isNew` after a blank
// line; the letters at the end of the words above; the line of its heading; and whether it is below
// a heading, in a saved game, or among other words. `odd` says which unusual letters it has. A
// heading without letters is a group without any.
class Groups {
    found = [];
    open = null;
    head = null;
    front = null;
    blanks = 0;
    part = null;
    add(it) {
        const { number, line, part } = this.line = it;
        if (part !== this.part) this.end();
        this.part = part;
        if (!line.trim()) {
            if (++this.blanks > 1) this.open = null;
            return;
        }
        const bare = bareLine(line), odd = IS_ODD.test(line) ? "arrows or wide characters" : "";
        const areAlone = LETTERS_ALONE.test(bare);
        // several solutions, each after its number
        const numbered = areAlone && bare.length < LONGEST_LINE
            ? bare.split(LOOSE).map(packed).filter(({ length }) => length > 1) : [];
        const parts = numbered.length > 1 || bare.length >= LONGEST_LINE ? numbered
            : stringsIn(bare);
        const other = parts.length > 1 ? null : areAlone ? { piece: packed(bare), words: odd }
            : stepsIn(bare.trim());
        // short words of other alphabets are words, unless they are where a solution is expected
        const areSteps = other && (other.words === odd || other.piece.length >= LONG || this.head
            && !this.head.isUsed || this.open?.odd === other.words);
        if (areSteps) this.addLetters(number, other);
        else this.addWords(number, bare, odd, parts);
        this.blanks = 0;
    }
    addLetters(number, { piece, words: odd }) {
        if (this.open && (this.open.pieces.length >= MOST_PIECES || this.open.odd !== odd))
            this.open = null;
        if (!this.open) {
            const { head, front } = this;
            this.open = { part: this.part, number, pieces: [], front, heading: head?.line,
                isSaved: Boolean(head?.isSaved), odd,
                isHeaded: Boolean(head && !head.isSaved
                    && (!head.isUsed || front?.number === head.number)) };
            this.found.push(this.open);
            this.front = null;
            if (head) this.head = { ...head, isUsed: true };
        }
        this.open.pieces.push({ number, piece, line: this.line,
            isNew: this.blanks > 0 && this.open.pieces.length > 0 });
    }
    addWords(number, line, odd, parts) {
        const isRemark = IS_REMARK.test(line), isHead = IS_HEAD.test(line) && !isRemark,
            isSaved = IS_SAVED.test(line);
        const other = isHead ? stepsIn(/[^:=]*$/.exec(line)[0].trim()) : null;
        const some = line.length > LONGEST_LINE ? []
            : [...line.replace(/\blurd\b(?=\s*[:=]|\W*\w)/i, " ").matchAll(AMONG_WORDS)]
            .map(it => packed(it[0])).filter(it => /[lurd]/i.test(it)).concat(parts);
        this.open = null;
        if (isHead || isSaved || this.head?.isUsed || !isRemark
            && !/^[\w -]{1,30}[:=]/.test(line)) {
            this.endHead();
            this.head = isHead || isSaved
                ? { number, line: this.line, isSaved, isUsed: some.length > 0 || other !== null,
                isPlain: IS_PLAIN_HEAD.test(line) && !isRemark } : null;
        }
        const isFront = some.length
            && line.replace(/[\s,.'"`*\\-]+$/, "").endsWith(some.at(-1).slice(-1));
        this.front = isFront ? { number, piece: some.at(-1), line: this.line, isFront, isHead }
            : null;
        const group = { part: this.part, number, front: null, isHeaded: isHead && /[:=]/.test(line),
            isSaved: Boolean(this.head?.isSaved), isWords: true,
            isTitle: IS_TITLE.test(line) };
        for (const piece of new Set(some))
            this.found.push({ ...group, pieces: [{ number, piece, line: this.line }], odd });
        if (other) this.found.push({ ...group,
            pieces: [{ number, piece: other.piece, line: this.line }], odd: other.words });
    }
    endHead() {
        if (this.head?.isPlain && !this.head.isUsed)
            this.found.push({ number: this.head.number, pieces: [], isHeaded: true,
            part: this.part });
    }
    end() {
        this.endHead();
        this.open = this.head = this.front = null;
        return this.found;
    }
}

function groupsIn(lines) {
    const groups = new Groups();
    for (const it of lines) groups.add(it);
    return groups.end();
}

// What isn't read in a level text that is read as it is, since answers were given with it: whether
// a line is of a solution, or a row in another form.
const isOfSolution = line => IS_PLAIN_HEAD.test(line) || LETTERS_ALONE.test(line)
    && (line.length > LONGEST_LINE || packed(line).length >= LONG);
const isOtherRow = line => !isRow(line) && rowIn(line) !== null;

// The first of each run of such lines.
function firstLines(text, isOne) {
    const found = [];
    let last = 0;
    eachLine(text, (line, number) => {
        if (!isOne(line)) return;
        if (number !== last + 1) found.push(number);
        last = number;
    }, 0, true);
    return found;
}

// ---- replays

const joined = pieces => pieces.map(({ piece }) => piece).join("");
// Letters cut at the blank lines between them: { number, line, piece, pieces }.
function paragraphsOf(pieces) {
    const found = [];
    for (const it of pieces) {
        if (it.isNew || !found.length) found.push([]);
        found.at(-1).push(it);
    }
    return found.map(some => ({ ...some[0], piece: joined(some), pieces: some }));
}
// the steps of letters that solve nothing; after enough of them no more are tried
let steps = 0;

// The board of some rows, its state at the start, and why no letters are tried on it, or "".
function boardToTry(rows) {
    const isLarge = rows.length > MOST_SIDE || rows.some(({ length }) => length > MOST_SIDE);
    const board = new Board(isLarge ? [] : rows), { length } = board.players;
    const fault = isLarge ? "the level is too large" : length === 1 ? ""
        : `the level has ${many(length, "player")}`;
    return Object.assign(board, { fault, start: board.state() });
}

// Plays letters, given as bytes, on a board as far as they can be played, whatever their case. The
// board is left as it was. Returns how many were played, how many boxes aren't on goals then, and
// why the next letter can't be played. The lists get the pushes, and after how many letters all
// boxes are on goals.
function tryOn(board, letters, pushes, ends) {
    board.play(letters, letters.length, false, pushes, ends);
    const { at, off, why } = board;
    board.undo(pushes, board.start);
    if (off || at < letters.length) steps += TRY + at;
    return { at, off, why };
}

// Whether letters without numbers, given as bytes, solve a board. It is asked millions of times.
const tried = [];
function solves(board, letters) {
    if (board.fault) return false;
    tried.length = 0;
    const { at, off } = tryOn(board, letters, tried, null);
    return at === letters.length && !off;
}

// Plays letters on a board. Returns why they don't solve it, or "", the number of moves and of
// pushes, the letters each in the case that its step has, and after how many of them all boxes are
// on goals.
function played(board, text) {
    const letters = expanded(text, MOST_PLAYED), pushes = [], ends = [];
    const none = board.fault || (letters === null || letters.length > MOST_PLAYED
        ? "it can't be written out, or is too long to be tried" : "");
    if (none) return { letters: "", why: none, ends: [] };
    const { at, off, why: stop } = tryOn(board, bytesOf(letters), pushes, ends);
    const made = [...letters.slice(0, at).toLowerCase()];
    let why = off ? `it leaves ${off === 1 ? "a box" : `${off} boxes`} off the goals` : "";
    if (at < letters.length) why = `letter ${at + 1}, ${letters[at]}: ${stop}`;
    for (let i = 0; i < pushes.length; i += 3) made[pushes[i]] = made[pushes[i]].toUpperCase();
    return { why, ends, moves: at, pushes: pushes.length / 3,
        letters: made.join("") + letters.slice(at) };
}

// The solution that the first pieces are: those up to a blank line, or as few as solve. Its count
// is 0 if they are none.
function firstSolution(pieces, board) {
    const whole = played(board, joined(pieces)), ends = new Set(whole.ends);
    if (!whole.why) return { solution: whole, count: pieces.length };
    let length = 0, count = 0;
    for (const [i, { piece }] of pieces.entries()) {
        length += piece.length;
        if (!ends.has(length)) continue;
        count ||= i + 1;
        if (pieces[i + 1]?.isNew) {
            count = i + 1;
            break;
        }
    }
    return { solution: count ? played(board, joined(pieces.slice(0, count))) : whole, count };
}

const NOT_TRIED = { letters: "", ends: [], why: "not tried, after too many others" };

// The solutions of a board in a group, one after the other, and what is none: { found, failed }.
function solutionsIn({ pieces, front }, board) {
    const found = [], failed = [];
    // the end of other words than a heading counts only if nothing else solves
    let left = front && (front.isHead || steps >= MOST_STEPS || !firstSolution(pieces, board).count)
        ? [front, ...pieces] : pieces;
    for (let tries = 0; left.length; tries++) {
        const isTried = tries < MOST_TRIES && steps < MOST_STEPS, [{ number, isFront }] = left;
        const { solution, count } = isTried ? firstSolution(left, board)
            : { solution: NOT_TRIED, count: 0 };
        if (count) {
            found.push({ solution, number, isFront, taken: left.slice(0, count) });
            left = left.slice(count);
        } else if (isFront) {
            left = left.slice(1);
        } else {
            const next = left.findIndex(({ isNew }, i) => i && isNew),
                rest = next < 0 ? left.length : next;
            failed.push({ solution, number, pieces: left.slice(0, rest) });
            left = left.slice(rest);
        }
    }
    return { found, failed };
}
