// The pictures of a small collection: each level with what its answer says. A solution plays once,
// unless the user wants less motion.

const MOST_PREVIEWED = 6, LARGEST_PREVIEWED = 2500, MOST_PREVIEWED_LETTERS = 5000;
// the milliseconds of a step
const STEP = 170;
const LARGE_CARD = { width: 280, height: 340, gap: 10 };

// the value of some work that doesn't take long
function done(work) {
    let step = work.next();
    while (!step.done) step = work.next();
    return step.value;
}

const canPreview = levels => levels.length <= MOST_PREVIEWED && levels.every(({ rows }) =>
    rows.length * Math.max(...rows.map(row => row.length)) <= LARGEST_PREVIEWED);

class Preview {
    isStopped = false;
    constructor(viewer, level) {
        Object.assign(this, { viewer, level, record: viewer.data.records[level.number] });
        this.element = html("div", { class: "preview", "aria-hidden": "true" });
        this.begin();
    }
    stop() {
        this.isStopped = true;
        clearTimeout(this.timer);
    }
    // draws the level, once it is judged if there is a judge
    async begin() {
        const { viewer, level, record, element } = this, { verdict } = level,
            board = boardOf(level);
        const judgement = viewer.hooks.judge ? await judgementOn(viewer, level) : {};
        if (this.isStopped || judgement.fault) return;
        this.picture = new Picture(board);
        element.append(this.picture.element);
        this.picture.show({ boxes: board.boxes, players: board.players });
        if (!record || verdict.words[0] === "board") return;
        if (record.kind === "solution") this.play();
        else this.picture.show(this.certificate(board));
    }
    // plays a solution from the start, or shows where it is refused
    play() {
        const { level: { rows, verdict }, record } = this;
        if (record.body.reduce((sum, [, line]) => sum + line.length, 0) > MOST_PREVIEWED_LETTERS)
            return;
        const replay = this.replay = new Replay(rows, done(lettersOf(record.body)));
        const isStill = matchMedia("(prefers-reduced-motion: reduce)").matches;
        if (verdict.status === "solved" && !isStill)
            this.timer = setTimeout(() => this.tick(), 4 * STEP);
        if (verdict.status !== "refused") return;
        done(replay.seek(verdict.words[0] === "move" ? refusedAt(verdict) : replay.letters.length));
        this.picture.show(positionOf(replay, refusedAt(verdict)));
    }
    tick() {
        if (this.isStopped || !this.replay.next()) return;
        this.picture.show(positionOf(this.replay, -1));
        this.timer = setTimeout(() => this.tick(), STEP);
    }
    // the pattern that covers the start, or the first one, or the zone
    certificate(board) {
        const { level: { verdict: { status, words } }, record: { body } } = this;
        const first = body.length ? certificateLine(body[0]) : {};
        if (first.zone) return zonePosition(board, zoneOf(board, first), null);
        const patterns = done(patternsIn(board, body)), start = new Set(board.boxes);
        const list = new Certificate(board, patterns), number = status === "unsolvable"
            ? done(list.covering(board.player, start))
                : patterns.findIndex(({ line }) => line === Number(words[1]));
        const pattern = patterns[Math.max(0, number)];
        if (!pattern || [...pattern.boxes].some(box => box < 0))
            return { boxes: board.boxes, players: board.players };
        return { boxes: [...pattern.boxes], shade: pattern.region(), where: "",
            others: othersOf(board, pattern.boxes) };
    }
}
