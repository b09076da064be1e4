// The game: boards, letters that are played on them, regions, and pushes out of them. The thread
// that audits plays on the same boards.

// what a cell has, as bits of its byte
const WALL = 1, GOAL = 2, BOX = 4;
const BYTES = { "#": WALL, ".": GOAL, "+": GOAL, "$": BOX, "*": GOAL | BOX };
// the letters of a solution: small for a walk, and capital for a push
const LETTERS = "lurdLURD";
const STEPS = { l: [-1, 0], u: [0, -1], r: [1, 0], d: [0, 1] };
const BACK = { l: "r", u: "d", r: "l", d: "u" };
const NAMES = { l: "left", u: "up", r: "right", d: "down" };
// how many letters are read at once, after how many a state is kept, and after how many the work
// pauses
const MOST_AT_ONCE = 1 << 16, KEPT_EVERY = 1 << 16, PAUSE_EVERY = 1 << 12;

const many = (number, one, more = `${one}s`) => `${number} ${number === 1 ? one : more}`;

// A board as bytes, row by row, with a wall around it. A place is the number of a byte, so that its
// column and its row count from 1. The boxes and the player move as letters are played.
class Board {
    at = 0;
    pushes = 0;
    changes = 0;
    last = -1;
    // why the next letter can't be played, or ""
    why = "";
    constructor(rows) {
        this.height = rows.length;
        this.width = rows.reduce((most, row) => Math.max(most, row.length), 0);
        this.stride = this.width + 2;
        this.cells = new Uint8Array(this.stride * (this.height + 2)).fill(WALL);
        this.players = [];
        rows.forEach((row, y) => {
            const first = (y + 1) * this.stride + 1;
            this.cells.fill(0, first, first + this.width);
            for (let x = 0; x < row.length; x++) {
                this.cells[first + x] = BYTES[row[x]] ?? 0;
                if (row[x] === "@" || row[x] === "+") this.players.push(first + x);
            }
        });
        this.player = this.players[0] ?? -1;
        this.boxes = this.placesOf(BOX);
        this.goals = this.placesOf(GOAL);
        this.off = this.boxes.filter(place => !(this.cells[place] & GOAL)).length;
        // how far a letter leads, by its byte
        this.far = new Int32Array(256);
        for (const letter of LETTERS) {
            const [dx, dy] = STEPS[letter.toLowerCase()];
            this.far[letter.charCodeAt(0)] = dx + dy * this.stride;
        }
    }
    // the places with something, where it is now
    placesOf(bit) {
        const { width, height, stride, cells } = this, found = [];
        for (let y = 1; y <= height; y++) {
            for (let place = y * stride + 1; place <= y * stride + width; place++) {
                if (cells[place] & bit) found.push(place);
            }
        }
        return found;
    }
    // the cells that the player could reach without boxes
    get room() {
        return this.foundRoom ??= this.region(this.players.slice(0, 1), []);
    }
    // the place of a cell, whose column and row count from 1, or -1 off the board
    place([column, row]) {
        const isOn = column >= 1 && row >= 1 && column <= this.width && row <= this.height;
        return isOn ? row * this.stride + column : -1;
    }
    column(place) {
        return place % this.stride;
    }
    row(place) {
        return Math.floor(place / this.stride);
    }
    name(place) {
        return `${this.column(place)},${this.row(place)}`;
    }
    next(place, dir) {
        return place < 0 ? -1 : place + this.far[dir.charCodeAt(0)];
    }
    isWall(place) {
        return place < 0 || (this.cells[place] & WALL) !== 0;
    }
    isGoal(place) {
        return (this.cells[place] & GOAL) !== 0;
    }
    // the places that are connected to seeds without walls and boxes
    region(seeds, boxes) {
        const seen = this.cells.map(cell => cell & WALL), found = [], { stride } = this;
        const visit = place => {
            if (place < 0 || seen[place]) return;
            seen[place] = 1;
            found.push(place);
        };
        for (const box of boxes) if (box >= 0) seen[box] = 1;
        seeds.forEach(visit);
        // the places that are found stay in the list, in the order in which they are looked at
        for (let at = 0; at < found.length; at++) {
            for (const by of [-1, 1, -stride, stride]) visit(found[at] + by);
        }
        return new Set(found);
    }

    // ---- letters

    // Plays letters, given as bytes, from the next one up to a number of them, until one can't be
    // played. If it is strict, a letter must have the case of its step. The lists, if there are
    // any, get the pushes (the number of the letter, and the places from and to), and after how
    // many letters all boxes are on goals.
    play(letters, to, isStrict = false, pushes = null, ends = null) {
        const { cells, far } = this;
        let { at, player, off } = this;
        this.why = "";
        for (; at < to && player >= 0; at++) {
            const letter = letters[at], by = far[letter], next = player + by, cell = cells[next];
            const isPush = (cell & BOX) !== 0;
            if (!by) this.why = "letter";
            else if (cell & WALL) this.why = "wall";
            else if (isPush && cells[next + by] & (WALL | BOX)) this.why = "blocked";
            else if (isStrict && isPush === letter >= 97) this.why = "case";
            if (this.why) break;
            if (isPush) {
                const beyond = next + by;
                cells[next] ^= BOX;
                cells[beyond] ^= BOX;
                off += (cell & GOAL) / GOAL - (cells[beyond] & GOAL) / GOAL;
                this.pushes++;
                if (next !== this.last) this.changes++;
                this.last = beyond;
                pushes?.push(at, next, beyond);
            }
            player = next;
            if (!off) ends?.push(at + 1);
        }
        Object.assign(this, { at, player, off });
    }
    // where the player is and what was counted, and the cells if the boxes are to be kept too
    state(cells) {
        const { at, player, off, pushes, changes, last } = this;
        return { at, player, off, pushes, changes, last, why: "", ...cells && { cells } };
    }
    // takes back the pushes that were played since a state
    undo(pushes, state) {
        for (let i = pushes.length - 3; i >= 0; i -= 3) {
            this.cells[pushes[i + 2]] ^= BOX;
            this.cells[pushes[i + 1]] ^= BOX;
        }
        Object.assign(this, state);
    }
}

// The letters of a record's body without blanks, as bytes, since a string of millions would be made
// in one long step. Pauses often.
function* lettersOf(body) {
    const bytes = new Uint8Array(body.reduce((sum, [, line]) => sum + line.length, 0));
    let length = 0;
    for (const [, line] of body) {
        for (let at = 0; at < line.length; at += MOST_AT_ONCE) {
            const end = Math.min(line.length, at + MOST_AT_ONCE);
            for (let i = at; i < end; i++) {
                const byte = line.charCodeAt(i);
                if (byte > 32 || !/[ \t\r\n]/.test(line[i])) bytes[length++] = byte;
            }
            yield;
        }
    }
    return bytes.subarray(0, length);
}

// A solution while it plays. It stops before the first letter that is refused. Going back starts
// from the last state that was kept, and plays on from there.
class Replay {
    kept = [];
    constructor(rows, letters) {
        Object.assign(this, { board: new Board(rows), letters });
        this.keep();
    }
    keep() {
        this.kept.push(this.board.state(this.board.cells.slice()));
    }
    get at() {
        return this.board.at;
    }
    // the letter after some others, or undefined after the last
    letter(i) {
        return i >= 0 && i < this.letters.length ? String.fromCharCode(this.letters[i]) : undefined;
    }
    // plays one letter, and returns whether it could be played
    next() {
        const { at } = this;
        this.board.play(this.letters, Math.min(at + 1, this.letters.length), true);
        return this.at > at;
    }
    // Plays to the state after some letters. Pauses often.
    *seek(to) {
        const { board, kept, letters } = this;
        if (to < board.at) {
            const state = kept[Math.max(0, Math.floor(to / KEPT_EVERY))];
            Object.assign(board, state, { cells: state.cells.slice() });
        }
        to = Math.min(to, letters.length);
        for (let isOn = true; isOn && board.at < to;) {
            const until = Math.min(to, kept.length * KEPT_EVERY, board.at + PAUSE_EVERY);
            board.play(letters, until, true);
            isOn = board.at === until;
            if (board.at === kept.length * KEPT_EVERY) this.keep();
            yield;
        }
    }
}

const cellsOf = text => text.split(" ").map(cell => cell.split(",").map(Number));

// a line 'pattern BOXES @ SEEDS', its cells still in words, or 'zone CELLS' as a list of cells
function certificateLine([line, text]) {
    const pattern = /^pattern ([0-9, ]+) @ (\*|[0-9, ]+)$/.exec(text);
    if (pattern) return { line, text, boxes: pattern[1], seeds: pattern[2] };
    const zone = /^zone ([0-9, ]+)$/.exec(text);
    return zone ? { line, text, zone: cellsOf(zone[1]) } : { line, text };
}

// A pattern on a board, whose words are read when they are asked for.
class Pattern {
    constructor(board, { line, boxes, seeds }) {
        Object.assign(this, { board, line, words: { boxes, seeds } });
    }
    places(words) {
        return cellsOf(words).map(cell => this.board.place(cell));
    }
    get boxes() {
        return this.foundBoxes ??= new Set(this.places(this.words.boxes));
    }
    // where the player may be; it isn't kept, since a long list would take too much memory
    region() {
        const { board, boxes, words: { seeds } } = this;
        return board.region(seeds === "*" ? [...board.room] : this.places(seeds), boxes);
    }
    // whether a player that stands on no box of the pattern is in its region
    has(player) {
        return this.words.seeds === "*" ? this.board.room.has(player) : this.region().has(player);
    }
}

// The patterns of a record's body on a board. Pauses often, since a list may be long.
function* patternsIn(board, body) {
    const patterns = [];
    for (const it of body) {
        const line = certificateLine(it);
        if (line.boxes) patterns.push(new Pattern(board, line));
        yield;
    }
    return patterns;
}

// A list of patterns on a board: the pushes out of them, and the patterns that cover the results.
// Its generators pause often, since a list may be long.
class Certificate {
    constructor(board, patterns) {
        Object.assign(this, { board, patterns });
        // the numbers of the patterns, by their first boxes
        this.byBox = new Map();
        this.read = 0;
    }
    *readAll() {
        for (; this.read < this.patterns.length; this.read++) {
            const [box] = this.patterns[this.read].boxes;
            if (!this.byBox.has(box)) this.byBox.set(box, []);
            this.byBox.get(box).push(this.read);
            yield;
        }
    }
    // the first pattern that covers a state, or -1
    *covering(player, boxes) {
        yield* this.readAll();
        let best = this.patterns.length;
        for (const box of boxes) {
            for (const i of this.byBox.get(box) ?? []) {
                if (i >= best) break;
                const pattern = this.patterns[i];
                if (pattern.boxes.size <= boxes.size && isWithin(pattern.boxes, boxes)
                    && pattern.has(player)) best = i;
                yield;
            }
        }
        return best < this.patterns.length ? best : -1;
    }
    // the pushes out of a pattern, in order of the player's cell, then in the order lurd
    *pushesOut(pattern) {
        const found = [], region = pattern.region();
        for (const box of pattern.boxes) {
            for (const dir in STEPS) {
                const player = this.board.next(box, BACK[dir]), to = this.board.next(box, dir);
                if (player < 0 || !region.has(player)) continue;
                if (this.board.isWall(to) || pattern.boxes.has(to)) continue;
                const boxes = new Set(pattern.boxes);
                boxes.delete(box);
                boxes.add(to);
                const covered = yield* this.covering(box, boxes);
                found.push({ player, dir, from: box, to, covered });
            }
        }
        return found.sort((a, b) => a.player - b.player
            || "lurd".indexOf(a.dir) - "lurd".indexOf(b.dir));
    }
}

function isWithin(some, all) {
    for (const place of some) if (!all.has(place)) return false;
    return true;
}

// where a zone leaks: a cell of it from which a relaxed push leads out
function leakOf(board, words) {
    const place = board.place(words[0].split(",").map(Number));
    return { from: place, to: board.next(place, words[1]), dir: words[1] };
}
