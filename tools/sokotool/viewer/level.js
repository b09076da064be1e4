// The page of one level: its heading, the line of the report, the board, and its answer next to it.

// a view without steps
const STILL = { keys: {}, stop() {} };
// how far a finger moves for a tap at most, and for a swipe at least
const TAP = 10, SWIPE = 60;

const field = (name, value) =>
    html("span", { class: "count", "data-name": name }, `${name} `, html("b", {}, String(value)));

// copies a text, and says on the button that it did
async function copy(text, button) {
    try {
        await navigator.clipboard.writeText(text);
        button.textContent = "copied";
    } catch {
        prompt("Press Ctrl+C to copy", text);
    }
}

// a text to be looked at and copied, which is made when it is opened
function toCopy(words, name, made, attributes = {}) {
    const area = html("textarea", { readonly: "", rows: 4, "aria-label": name, ...attributes });
    const button = html("button", { onclick() {
        area.select();
        button.textContent = document.execCommand("copy") ? "copied" : "press Ctrl+C";
    } }, "copy");
    return html("details", { class: "whole", ontoggle: () => area.value ||= made() },
        html("summary", {}, words), area, button);
}

const textOfLevel = ({ title, rows }) => `${rows.join("\n")}\n${title && `Title: ${title}\n`}`;
// the level as a text, which a reader without eyes can walk through, too
const rowsToCopy = level => toCopy("the level, to copy", "rows of the level",
    () => textOfLevel(level), { wrap: "off", rows: Math.min(level.rows.length + 1, 20) });

// What a viewer's judge says of a level as it is drawn: whether the verdict is the one of the
// report, and words on that. Without a judge there are no words.
async function judgementOn({ hooks, data }, level) {
    const { rows, verdict: { status, words } } = level, record = data.records[level.number];
    const line = [status, ...words].join(" "), before = level.judged;
    if (before?.rows === rows && before.body === record?.body) return before;
    const said = await hooks.judge(rows, record);
    // without an answer the level is at least legal
    const isSame = said.line === line
        || status === "missing" && !/^(?:refused board|fault)/.test(said.line);
    const parts = record ? `rows and ${record.kind === "solution" ? "letters" : "lines"}` : "rows";
    if (said.line && !isSame) {
        return { fault: `Nothing is drawn: these ${parts} were judged by themselves, and the `
            + `verdict is '${said.line}'. Please report this.` };
    }
    if (record) record.body = said.body;
    return level.judged = { rows, body: record?.body, isSame, words: said.line
        ? `\u2713 The proved program judged exactly the ${parts} drawn here: same verdict.`
        : `These ${parts} could not be judged by themselves.` };
}

// The page of a level within a viewer. If the viewer has a judge, the level is drawn once it is
// judged, and only if the verdict is the one of the report.
class LevelPage {
    answer = STILL;
    isStopped = false;
    constructor(viewer, level, at) {
        const { data: { records }, levelPart: element } = viewer, { number, verdict } = level;
        Object.assign(this, { viewer, level, at, element, verdict, record: records[number] });
        this.board = boardOf(level);
        const isWhole = [verdict.status, ...verdict.words].join(" ") !== "refused board size";
        // what is drawn of a level that is too large is only a part of it
        if (viewer.hooks.judge && isWhole) this.judge();
        else this.build({});
    }
    get keys() {
        const { answer, viewer: { hooks } } = this;
        return { ...answer.keys,
            ...hooks.deadSquares && this.isLegal && { d: () => this.toggle() } };
    }
    get isLegal() {
        return this.verdict.words[0] !== "board";
    }
    stop() {
        this.isStopped = true;
        this.answer.stop();
    }
    judge() {
        const { element, viewer, level } = this;
        if (level.judged?.rows === level.rows && level.judged.body === this.record?.body) {
            this.build(level.judged);
            return;
        }
        element.replaceChildren(...this.head(),
            html("p", { class: "unjudged" }, "The program judges this level .."));
        judgementOn(viewer, level).then(judgement => {
            if (this.isStopped) return;
            const hasFocus = element.contains(document.activeElement);
            if (judgement.fault) {
                element.replaceChildren(...this.head(),
                    html("p", { class: "misjudged", role: "alert" }, judgement.fault));
            } else this.build(judgement);
            if (hasFocus) this.heading.focus({ preventScroll: true });
        });
    }
    // the links, the heading and the report line
    head() {
        const { level, viewer: { data }, verdict: { status, line } } = this;
        const source = data.sources?.[level.number];
        this.heading = html("h2", { class: "heading", tabindex: -1 }, `Level ${level.number}`,
            level.title ? html("span", { class: "title" }, ` ${level.title}`) : "", " ",
            html("small", {}, `line ${level.line} of ${level.file ?? data.names[0]}`
                + (source ? `, from line ${source.line} of ${source.file}` : "")));
        return [this.links(), this.heading,
            html("p", { class: `verdict ${status}` }, `${STATUSES[status] ?? ""} ${line}`),
            html("p", { class: "why" }, whyOf(level)), ...(source?.left ?? []).map(words =>
                html("p", { class: "left" }, `${source.file} ${words}`))];
    }
    links() {
        const { viewer, level, viewer: { hooks } } = this, { number } = level;
        const link = (to, words, name) => viewer.levels[to - 1] ? html("a",
            { class: "button", href: `#${to}`, "aria-label": `${name} level, ${to}` }, ...words)
                : "";
        return html("nav", { "aria-label": "Levels" },
            html("a", { class: "button", href: "#" }, "all levels"),
            link(number - 1, ["\u2190", html("span", {}, " previous")], "previous"),
            link(number + 1, [html("span", {}, "next "), "\u2192"], "next"),
            hooks.deadSquares && this.isLegal ? this.deadButton = html("button", {
                class: "show-dead", title: "key: d", "aria-pressed": String(Boolean(level.dead)),
                onclick: () => this.toggle() }, "dead squares") : "",
            html("button", { class: "help", "aria-label": "keys",
                onclick: () => viewer.showKeys() }, "?"));
    }
    // what hands the level on
    copies() {
        const { level, viewer: { hooks } } = this;
        const button = (words, made) => html("button", { onclick: async ({ target }) => {
            const text = await made();
            if (text) copy(text, target);
            else target.textContent = "too long for a link";
        } }, words);
        return html("p", { class: "controls" }, ...hooks.linkOf ? [button("Copy link",
            () => hooks.linkOf(level, this.record, this.answer.at))] : [],
        button("Copy level", () => textOfLevel(level)));
    }
    // draws the level, with words on how it was judged
    build({ words, isSame }) {
        const { element, level, viewer: { hooks } } = this;
        this.pane = html("section", { class: "pane" });
        this.side = html("section", { class: "side" });
        this.picture = new Picture(this.board);
        this.pane.append(this.picture.element);
        const why = isSame && hooks.explain
            ? [" ", html("button", { class: "why-proved", onclick: hooks.explain },
                "What is proved?")]
            : [];
        element.replaceChildren(...this.head(), this.refusedLine(),
            ...words ? [html("p", { class: "judged" }, words, ...why)] : [],
            html("div", { class: "two" }, this.pane, this.side), this.copies(), rowsToCopy(level));
        this.answer = this.answerOf();
        this.listen();
    }
    // shows a position, with the dead squares if they are wanted
    show(position) {
        this.position = position;
        this.picture.show({ ...position, dead: this.level.dead });
    }
    // shows the dead squares, or hides them
    async toggle() {
        const { level, board, viewer, viewer: { hooks } } = this;
        let words = "";
        if (level.dead) level.dead = null;
        else {
            const { cells, fault } = await hooks.deadSquares(level.rows);
            const places = cells.map(cell => board.place(cell.split(",").map(Number)));
            if (!fault) level.dead = places;
            words = fault || listed(board, places, "dead square", "dead squares");
        }
        if (this.isStopped) return;
        this.deadButton?.setAttribute("aria-pressed", String(Boolean(level.dead)));
        if (this.position) this.show(this.position);
        viewer.say(words);
    }
    // A finger that is drawn aside leads to the next level or the one before. A tap or a click
    // right or left of the player leads a letter on or back.
    listen() {
        const { pane, viewer, level } = this;
        let from = null;
        pane.addEventListener("pointerdown", event => {
            from = event.isPrimary && event.button === 0 ? event : null;
        });
        pane.addEventListener("pointercancel", () => from = null);
        pane.addEventListener("pointerup", event => {
            const begun = from;
            from = null;
            if (!begun) return;
            const dx = event.clientX - begun.clientX, dy = event.clientY - begun.clientY;
            if (event.pointerType !== "mouse" && Math.abs(dx) > SWIPE
                && Math.abs(dx) > 2 * Math.abs(dy)) {
                if (viewer.levels[level.number - 1 - Math.sign(dx)])
                    viewer.go(level.number - Math.sign(dx));
            } else if (Math.hypot(dx, dy) < TAP && !event.target.closest(".arrow")) {
                this.answer.tap?.(event.clientX);
            }
        });
    }

    // ---- the answer

    // the line of the answers that the report line refuses
    refusedLine() {
        const { record, verdict: { status, words } } = this;
        const line = status === "refused" && words[0] === "line" ? Number(words[1]) : 0;
        const text = record?.body.find(([number]) => number === line)?.[1];
        if (text === undefined) return "";
        return html("p", { class: "refused-line" }, `Line ${line} of the answers: `,
            html("code", {}, text.length > 2000 ? `${text.slice(0, 2000)}\u2026` : text));
    }
    answerOf() {
        const { record, verdict: { status, words } } = this;
        if (status === "refused" && words[0] === "board") {
            return this.still("The level is refused, so no answer is checked. "
                + this.sizeOf(words[1]));
        }
        if (!record) return this.still(this.viewer.hooks.unanswered
            ?? "There is no answer for this level.");
        if (record.kind === "solution") return new SolutionView(this);
        const first = record.body.length ? certificateLine(record.body[0]) : {};
        if (first.zone) return zoneView(this, first);
        if (record.body.some(line => certificateLine(line).boxes)) return new PatternsView(this);
        return this.still("The record has nothing to draw.");
    }
    // what a refused level has
    sizeOf(why) {
        const { players, boxes, goals } = this.board;
        return why === "size" ? "Its first rows and columns are drawn."
            : `It has ${many(players.length, "player")}, ${many(boxes.length, "box", "boxes")} and `
                + `${many(goals.length, "goal")}.`;
    }
    still(why) {
        this.show({ boxes: this.board.boxes, players: this.board.players });
        this.side.append(html("p", {}, why));
        return STILL;
    }
}
