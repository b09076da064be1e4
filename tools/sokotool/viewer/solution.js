// The view of a solution: the board, the counts, a slider, buttons and the letters.

const MOST_LETTERS = 400, MOST_TO_COPY = 1 << 20;
let pace = 6;

class SolutionView {
    replay = null;
    ticking = 0;
    work = new Parts();
    constructor(page) {
        const { record, verdict, at, side, viewer, level } = page;
        Object.assign(this, { page, record, verdict, to: at, side, viewer, level });
        this.work.run(lettersOf(record.body), letters => this.begin(letters));
    }
    // shows the start, or the letter that the address names or the report refuses
    begin(letters) {
        this.replay = new Replay(this.level.rows, letters);
        this.end = letters.length;
        this.refusedAt = refusedAt(this.verdict);
        this.build();
        const isOpen = !this.to && this.verdict.words[0] === "unsolved";
        const at = this.to === "end" || isOpen ? this.end
            : this.to ? Number(this.to) || 0 : Math.max(0, this.refusedAt);
        if (!this.work.run(this.replay.seek(at), () => this.render())) this.render();
    }
    get at() {
        return this.replay?.at;
    }
    build() {
        this.counts = html("p", { class: "counts" });
        this.range = html("input", { type: "range", min: 0, max: this.end,
            "aria-label": "letters played", oninput: () => this.seek(Number(this.range.value)) });
        this.letters = html("p", { class: "letters", "aria-hidden": "true" });
        this.note = html("p", { class: "note" });
        this.speed = html("input", { type: "range", min: 1, max: 60, value: pace,
            "aria-label": "letters per second", oninput: () => pace = Number(this.speed.value) });
        this.run = html("button", { title: "key: space", onclick: () => this.toggle() }, "play");
        const button = (name, label, key, act) =>
            html("button", { title: `key: ${key}`, "aria-label": label, onclick: act }, name);
        this.side.append(this.counts, this.range, html("p", { class: "controls" },
            button("start", "start", "Home", () => this.seek(0)),
            button("previous", "previous letter", "arrow left", () => this.step(-1)), this.run,
            button("next", "next letter", "arrow right", () => this.step(1)),
            button("end", "end", "End", () => this.seek(this.end)),
            html("label", {}, "speed ", this.speed)), this.note, this.letters,
                wholeOf(this.record.body));
    }
    get keys() {
        if (!this.replay) return {};
        return { ArrowRight: () => this.step(1), ArrowLeft: () => this.step(-1),
            PageDown: () => this.step(10), PageUp: () => this.step(-10),
            Home: () => this.seek(0), End: () => this.seek(this.end), " ": () => this.toggle(),
            "+": () => this.faster(3), "-": () => this.faster(-3) };
    }
    render() {
        const { replay, replay: { board, at }, refusedAt: refused } = this;
        this.page.show(positionOf(replay, refused));
        this.counts.replaceChildren(field("moves", at), field("pushes", board.pushes),
            field("changes", board.changes), html("span", { class: "state",
                "data-solved": String(!board.off) }, this.state()));
        this.range.value = at;
        this.renderLetters();
        this.note.textContent = refused < 0 ? ""
            : `Letter ${refused + 1} is refused${at === refused ? " here" : ""}: `
            + `${this.verdict.words[2]}.`;
    }
    renderLetters() {
        const { replay, replay: { at }, refusedAt: refused, end } = this;
        const from = Math.max(0, Math.min(at - MOST_LETTERS / 2, end - MOST_LETTERS));
        const spans = [];
        for (let i = from; i < Math.min(from + MOST_LETTERS, end); i++) {
            const letter = replay.letter(i);
            spans.push(html("span", { class: i === refused ? "bad" : i < at ? "done"
                : i === at ? "here" : "" }, /[!-~]/.test(letter) ? letter : "\u00b7"));
        }
        this.letters.replaceChildren(from ? "\u2026" : "", ...spans,
            from + MOST_LETTERS < end ? "\u2026" : "");
    }
    // how far the boxes are
    state() {
        const { off } = this.replay.board;
        return off ? `${many(off, "box", "boxes")} off the goals` : "every box on a goal";
    }
    // what the step is, in words
    words() {
        const { replay, replay: { at } } = this, letter = replay.letter(at - 1);
        const step = at ? `${letter === letter.toLowerCase() ? "step" : "push"} `
            + NAMES[letter.toLowerCase()] : "start";
        return `Letter ${at} of ${this.end}: ${step}. ${this.state()}. ${this.note.textContent}`;
    }
    seek(to) {
        this.stop();
        this.work.run(this.replay.seek(to), () => this.shown());
    }
    step(by) {
        this.seek(this.at + by);
    }
    // a tap right of the player leads on, and one left of it back
    tap(x) {
        const { board } = this.replay, { a, e } = this.page.picture.element.getScreenCTM();
        this.step(x < e + a * middle(board, board.player)[0] ? -1 : 1);
    }
    shown() {
        this.render();
        this.viewer.settle(this.at, this.words());
    }
    toggle() {
        if (this.ticking) {
            this.stop();
            return;
        }
        this.run.textContent = "stop";
        this.work.run(this.replay.seek(this.at >= this.end ? 0 : this.at), () => this.tick());
    }
    tick() {
        if (!this.replay.next()) {
            this.stop();
            return;
        }
        this.shown();
        this.ticking = setTimeout(() => this.tick(), 1000 / pace);
    }
    stop() {
        this.work.stop();
        clearTimeout(this.ticking);
        this.ticking = 0;
        if (this.replay) this.run.textContent = "play";
    }
    faster(by) {
        this.speed.value = pace = Math.max(1, Math.min(60, pace + by));
    }
}

// the number of letters before the one that a verdict refuses, or -1
const refusedAt = ({ status, words }) =>
    status === "refused" && words[0] === "move" ? Number(words[1]) - 1 : -1;

// a replay as a position: the player looks to where the last letter led, or the first will, and an
// arrow shows the letter that is refused
function positionOf(replay, refused) {
    const { board, board: { at, player } } = replay, next = replay.letter(refused)?.toLowerCase();
    const isHere = at === refused && player >= 0 && next in STEPS;
    const dir = replay.letter(Math.max(0, at - 1))?.toLowerCase();
    return { boxes: board.placesOf(BOX), players: [player], dir: dir in STEPS ? dir : undefined,
        arrows: isHere ? [{ from: player, dir: next, kind: "refused", length: .9,
            title: "the letter that is refused" }] : [] };
}

// all letters of a solution, to be looked at and copied; of millions the first ones
function wholeOf(body) {
    let length = 0;
    // a long line is cut into several with the same number
    const some = body.filter(([, line]) =>
        (length += line.length + 1) - line.length <= MOST_TO_COPY)
        .map(([number, line], i) => i && body[i - 1][0] !== number ? `\n${line}` : line);
    const words = length > MOST_TO_COPY ? "the first letters, to copy" : "all letters, to copy";
    return toCopy(words, "all letters", () => some.join("").slice(0, MOST_TO_COPY));
}
