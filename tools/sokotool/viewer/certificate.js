// The view of a certificate: a list of patterns one by one, with the pushes out of each, or a zone.

const LEGEND = "Shaded: where the player may be. Faint: the other boxes, where they are at the "
    + "start; the pattern doesn't name them. An arrow is a push; click it to go to the pattern "
    + "that covers its result.";

class PatternsView {
    constructor(page) {
        const { record, verdict, board, at, side, viewer } = page;
        Object.assign(this, { page, record, verdict, board, to: at, side, viewer, patterns: [],
            work: new Parts(), startWork: new Parts() });
        this.work.run(patternsIn(board, record.body), patterns => this.begin(patterns));
    }
    get at() {
        return this.now;
    }
    begin(patterns) {
        this.patterns = patterns;
        const { status, words: [what, number, why, at, dir] } = this.verdict;
        const refused = status === "refused" && what === "line" ? Number(number) : -1;
        this.certificate = new Certificate(this.board, patterns);
        this.refused = this.patterns.findIndex(({ line }) => line === refused);
        this.push = this.refused >= 0 && why === "push" ? { at, dir } : null;
        this.build();
        this.go(Number(this.to) || this.refused + 1 || 1);
    }
    get keys() {
        if (!this.patterns.length) return {};
        const on = () => this.step(1), back = () => this.step(-1);
        return { ArrowRight: on, ArrowDown: on, ArrowLeft: back, ArrowUp: back,
            PageDown: () => this.step(10), PageUp: () => this.step(-10),
            Home: () => this.show(1), End: () => this.show(this.patterns.length) };
    }
    build() {
        this.note = html("p", { class: "note", tabindex: -1 });
        this.moves = html("ol", { class: "pushes" });
        const input = () => this.number.value && this.show(this.number.value);
        this.number = html("input", { type: "number", min: 1, max: this.patterns.length,
            "aria-label": "pattern", oninput: input });
        const toStart = html("span");
        const button = (name, label, act) =>
            html("button", { "aria-label": label, onclick: act }, name);
        this.side.append(html("p", { class: "controls" },
            button("previous", "previous pattern", () => this.step(-1)),
            html("label", {}, "pattern ", this.number, ` of ${this.patterns.length}`),
            button("next", "next pattern", () => this.step(1)),
            toStart), this.note, this.moves, html("p", { class: "key" }, LEGEND));
        const { board: { players, boxes } } = this;
        this.startWork.run(this.certificate.covering(players[0] ?? -1, new Set(boxes)),
            start => start < 0
            || toStart.append(button("start position", undefined, () => this.show(start + 1))));
    }
    // draws a pattern, counted from 1, and the pushes out of it once they are found
    go(to) {
        this.now = Math.max(1, Math.min(this.patterns.length, Math.trunc(to) || 1));
        const pattern = this.patterns[this.now - 1];
        const isOnBoard = ![...pattern.boxes].some(box => box < 0);
        if (Number(this.number.value) !== this.now) this.number.value = this.now;
        if (!isOnBoard) {
            this.work.stop();
            this.draw(pattern, []);
            return;
        }
        const isDone = this.work.run(this.certificate.pushesOut(pattern), (pushes, isLate) => {
            this.draw(pattern, pushes);
            if (isLate) this.viewer.say(this.note.textContent);
        });
        if (!isDone) this.draw(pattern, null);
    }
    // draws a pattern with the pushes out of it, or null while they aren't known
    draw(pattern, pushes) {
        const { boxes, line } = pattern, region = pattern.region();
        const cells = many(region.size, "cell");
        this.page.show({ boxes: [...boxes].filter(box => box >= 0), shade: region,
            others: othersOf(this.board, boxes), where: `player in ${cells}`,
            arrows: (pushes ?? []).map(out => this.arrow(out)) });
        this.moves.replaceChildren(...(pushes ?? []).map(out =>
            html("li", { class: this.kind(out) }, out.covered < 0 ? this.words(out)
                : html("button", { onclick: () => this.follow(out) }, this.words(out)))));
        const outs = pushes ? `${many(pushes.length, "push", "pushes")} out`
            : "looking for the patterns that cover the pushes";
        this.note.textContent = `Line ${line}. ${many(boxes.size, "box", "boxes")}, ${cells} where `
            + `the player may be, ${outs}.${this.fault()}`;
    }
    arrow(out) {
        return { from: out.player, dir: out.dir, kind: this.kind(out), title: this.words(out),
            act: out.covered < 0 ? null : () => this.show(out.covered + 1) };
    }
    fault() {
        const { words } = this.verdict;
        if (this.now === this.refused + 1 && !this.push) {
            return ` This line is refused: ${words.slice(2).join(" ")}.`;
        }
        return words[0] === "start" ? " No pattern covers the start." : "";
    }
    kind(out) {
        const isRefused = this.push && this.now === this.refused + 1
            && this.board.name(out.player) === this.push.at && out.dir === this.push.dir;
        return isRefused ? "refused" : out.covered < 0 ? "open" : "covered";
    }
    words(out) {
        const result = out.covered >= 0 ? `covered by pattern ${out.covered + 1}`
            : this.kind(out) === "refused" ? "no pattern covers the result" : "not covered";
        return `push ${this.board.name(out.player)} ${out.dir}: ${result}`;
    }
    show(to) {
        this.go(to);
        this.viewer.settle(this.now,
            `Pattern ${this.now} of ${this.patterns.length}. ${this.note.textContent}`);
    }
    step(by) {
        this.show(this.now + by);
    }
    // goes to the pattern that covers a push, and moves the focus to the first push out of it
    follow(out) {
        this.show(out.covered + 1);
        (this.moves.querySelector("button") ?? this.note).focus();
    }
    stop() {
        this.work.stop();
        this.startWork.stop();
    }
}

// the boxes of the start that a pattern leaves out: the nearest one to each of its boxes that is
// elsewhere counts as moved
function othersOf(board, boxes) {
    const others = new Set(board.boxes.filter(box => !boxes.has(box)));
    const far = (a, b) => Math.abs(board.column(a) - board.column(b))
        + Math.abs(board.row(a) - board.row(b));
    for (const box of boxes) {
        if (board.boxes.includes(box) || !others.size) continue;
        others.delete([...others]
            .reduce((best, other) => far(other, box) < far(best, box) ? other : best));
    }
    return [...others];
}

// the places of a zone on a board
const zoneOf = (board, { zone }) => new Set(zone.map(cell => board.place(cell))
    .filter(place => place >= 0));

// a zone as a position, with the push that leads out of it, if there is one
const zonePosition = (board, cells, leak) => ({ boxes: board.boxes, players: board.players,
    shade: cells, shadeKind: "zone", arrows: leak ? [{ from: leak.from, dir: leak.dir,
        kind: "refused", length: .9, title: "a push leads out of the zone" }] : [] });

function zoneView(page, first) {
    const { board, verdict: { status, words }, side } = page, cells = zoneOf(board, first);
    const isLeak = status === "refused" && words[2] === "leak";
    const leak = isLeak ? leakOf(board, words.slice(3)) : null;
    const inside = places => places.filter(place => cells.has(place)).length;
    page.show(zonePosition(board, cells, leak));
    side.append(html("p", { class: "counts" }, field("cells", cells.size),
        field("boxes", inside(board.boxes)), field("goals", inside(board.goals))),
    html("p", { class: "note" }, `Line ${first.line}. `
        + (leak ? `A push from ${board.name(leak.from)} ${NAMES[leak.dir]} leads out of the zone.`
            : status === "refused" ? `The zone is refused: ${words.slice(2).join(" ")}.`
                : "No push leads out of the zone, and it has more boxes than goals.")));
    return STILL;
}
