// The overview: a button for each status, a field to find levels, and a card for each level. The
// page has only the cards in view, and the ones around the chosen card, so that Tab finds the next.

const STATUSES = { solved: "\u2713", unsolvable: "\u2715", refused: "!", missing: "?" };
const CARD = { width: 142, height: 200, gap: 8 };
const NO_VERDICT = { line: "not in the report", status: "missing", words: [] };
// words as they are compared: in small letters, and an accent in one spelling
const plain = words => words.normalize("NFKC").toLowerCase();
// what a level is found by
const wordsOf = level =>
    level.words ??= plain(`${level.number} ${level.title} ${level.verdict.line}`);
// sentences on why a level or its answer is refused, the last one on the mistake if it is known; or
// ""
const whyOf = ({ verdict: { status, words, mistake } }) => status !== "refused" ? ""
    : refusalWords(words) + (mistake ? ` Here: ${mistake}.` : "");
const boardOf = level => level.board ??= new Board(level.rows);

// a report line as a card has room for it
const shortLine = line => line.replace(/^level \d+ /, "")
    .replace(/^solved moves (\d+) pushes (\d+) .*/, (_, moves, pushes) =>
        `${many(Number(moves), "move")}, ${many(Number(pushes), "push", "pushes")}`);

// The card of a level, with a small picture or a larger one.
function makeCard(level, chosen, picture = html("canvas", { "aria-hidden": "true" })) {
    const { status, line } = level.verdict, why = whyOf(level);
    return html("a", { class: `card ${status}`, href: `#${level.number}`,
        "data-level": level.number, "aria-label": `${line}. ${level.title}`,
        "aria-description": why || undefined, onfocus: chosen },
    picture, html("b", {}, `${STATUSES[status] ?? ""} ${level.number}`),
    html("span", { class: "title", title: level.title }, level.title),
    html("span", { class: "line", title: why || undefined }, shortLine(line)));
}

function colours() {
    const style = getComputedStyle(document.documentElement);
    return Object.fromEntries(["floor", "wall", "goal", "box", "home", "player"]
        .map(name => [name, style.getPropertyValue(`--${name}`).trim()]));
}

// The cards of a viewer: those that are shown, the status that they are limited to, and the level
// chosen last.
class Overview {
    wanted = "";
    chosen = null;
    // the levels whose cards are in the page and not drawn yet, and the work that draws them
    undrawn = new Set();
    drawing = new Parts();
    // the larger pictures of a small collection
    previews = [];
    constructor(viewer) {
        const { levels } = viewer, isSmall = canPreview(levels);
        Object.assign(this, { viewer, levels, found: levels, isSmall,
            card: isSmall ? LARGE_CARD : CARD });
        this.nothing = html("p", { class: "nothing" }, "Nothing found.");
        this.element = html("section", { class: isSmall ? "overview large" : "overview",
            "aria-label": "Levels" }, this.nothing);
        this.field = html("input", { class: "words", type: "search", "aria-label": "Find levels",
            placeholder: "find levels", autocomplete: "off",
            title: "by number, title or words of the report line",
            oninput: () => this.limit(this.wanted),
            onkeydown: ({ key }) => key === "Enter" && this.focusCard(0) });
        this.nothing.hidden = levels.length > 0;
        this.totals = html("div", { class: "totals", role: "group",
            "aria-label": "Show levels by status" }, ...this.chips());
    }
    chips() {
        const counts = Object.keys(STATUSES).map(status => [status,
            this.levels.filter(level => level.verdict.status === status).length]);
        return [["", this.levels.length], ...counts].map(([status, count]) => {
            const chip = html("button", { class: `chip ${status || "all"}`, "data-status": status,
                "aria-pressed": String(!status),
                onclick: () => this.limit(this.wanted === status ? "" : status) },
            `${STATUSES[status] ?? ""} ${status || "levels"} ${count}`);
            chip.hidden = status !== "" && !count;
            return chip;
        });
    }

    // ---- cards

    // the number of columns, and the width and height of a card with its gap
    grid() {
        const { card: { width: least, height, gap } } = this,
            width = this.element.clientWidth + gap;
        const columns = Math.max(1, Math.floor(width / (least + gap)));
        return { columns, width: this.isSmall ? Math.min(width / columns, 1.5 * least)
            : width / columns,
            height: height + gap };
    }
    // the places of the cards in view and around the chosen one, in order
    placesInView({ columns, height }) {
        const { top } = this.element.getBoundingClientRect(), at = this.found.indexOf(this.chosen);
        const first = (Math.floor(-top / height) - 1) * columns;
        const last = (Math.ceil((innerHeight - top) / height) + 1) * columns;
        return this.found.map((_, i) => i)
            .filter(i => i >= first && i < last || at >= 0 && Math.abs(i - at) <= columns);
    }
    // Puts the cards in view into the page, and draws the new ones, or all. A card that stays isn't
    // moved, since it would lose the focus.
    show(all = false) {
        const { element, found, undrawn, nothing } = this, { columns, width, height } = this.grid();
        const places = this.placesInView({ columns, height });
        const isShown = new Set(places.map(i => found[i]));
        for (const level of this.levels) {
            if (level.card && !isShown.has(level)) {
                level.card.remove();
                level.card = null;
                undrawn.delete(level);
            }
        }
        element.style.height = `${Math.ceil(found.length / columns) * height}px`;
        if (all) undrawn.clear();
        places.reduceRight((next, i) => {
            const level = found[i], isNew = !level.card;
            const card = level.card ??= makeCard(level, () => this.choose(level),
                this.preview(level));
            if (isNew) element.insertBefore(card, next);
            card.style.width = `${width - this.card.gap}px`;
            card.style.left = `${i % columns * width}px`;
            card.style.top = `${Math.floor(i / columns) * height}px`;
            if (isNew || all) undrawn.add(level);
            return card;
        }, nothing);
        this.drawing.later(this.sketches(places.map(i => found[i])), () => {});
    }
    // the larger picture of a level in a small collection
    preview(level) {
        if (!this.isSmall) return undefined;
        this.previews.push(new Preview(this.viewer, level));
        return this.previews.at(-1).element;
    }
    stop() {
        this.drawing.stop();
        for (const preview of this.previews) preview.stop();
    }
    // draws the cards that aren't drawn yet, the ones in view first
    *sketches(levels) {
        const palette = colours();
        const waiting = this.isSmall ? [] : levels.filter(level => this.undrawn.has(level));
        const first = new Set(waiting.filter(({ card }) => {
            const { top, bottom } = card.getBoundingClientRect();
            return bottom > 0 && top < innerHeight;
        }));
        for (const level of new Set([...first, ...waiting])) {
            const board = boardOf(level);
            yield;
            yield* sketch(level.card.querySelector("canvas"), board, palette);
            this.undrawn.delete(level);
            yield;
        }
    }
    // puts all cards, drawn, below those in view, for paper
    print() {
        const palette = colours(), cards = this.found.map(level => {
            const card = makeCard(level), work = sketch(card.querySelector("canvas"),
                boardOf(level), palette);
            while (!work.next().done);
            return card;
        });
        this.printed = html("div", { class: "printed" }, ...cards);
        this.element.append(this.printed);
    }

    // ---- the levels that are shown

    // shows the levels of a status, or all for "", that have the words of the field
    limit(status) {
        this.wanted = status;
        const words = plain(this.field.value).split(/\s+/).filter(word => word);
        this.found = this.levels.filter(level => (!status || level.verdict.status === status)
            && words.every(word => wordsOf(level).includes(word)));
        this.nothing.hidden = this.found.length > 0;
        for (const chip of this.totals.children) {
            chip.setAttribute("aria-pressed", String(chip.dataset.status === status));
        }
        const isOnCard = document.activeElement === this.chosen?.card;
        this.show();
        this.viewer.say(many(this.found.length, "level"));
        if (isOnCard) this.comeBack();
    }

    // ---- the chosen level

    // notes that a card has the focus, and puts the cards around it into the page
    choose(level) {
        this.chosen = level;
        this.show();
    }
    // moves the focus to the card at a place among those shown
    focusCard(i) {
        const level = this.found[Math.max(0, Math.min(this.found.length - 1, i))];
        if (!level) return;
        this.choose(level);
        level.card.focus();
    }
    // moves the focus by some cards, and to the first one if none was chosen yet
    move(by) {
        const at = this.found.indexOf(this.chosen);
        this.focusCard(at < 0 ? 0 : at + by);
    }
    // moves the focus back to the level chosen last, or to the next one that is shown
    comeBack() {
        const at = this.found.findIndex(level => level.number >= this.chosen.number);
        this.focusCard(at < 0 ? this.found.length - 1 : at);
    }
    get keys() {
        const { columns } = this.grid();
        const statuses = ["", ...Object.keys(STATUSES)]
            .map(status => [status[0] ?? "a", () => this.limit(status)]);
        return {
            ArrowRight: () => this.move(1), ArrowLeft: () => this.move(-1),
            ArrowDown: () => this.move(columns), ArrowUp: () => this.move(-columns),
            PageDown: () => this.move(4 * columns), PageUp: () => this.move(-4 * columns),
            Home: () => this.focusCard(0), End: () => this.focusCard(this.found.length - 1),
            "/": () => this.field.focus(), ...Object.fromEntries(statuses),
        };
    }
}
