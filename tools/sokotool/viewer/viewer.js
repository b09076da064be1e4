// The viewer: mount(element, data, hooks) shows levels with their answers within an element, and
// returns what `close` ends. The address after '#' names what is shown: '#N' is level N, and '#N:K'
// is its state after K letters, or its pattern K.
//
// The data has `names`, `levels`, `records`, `verdicts`, `fault` and `sources`. What a page can do
// more than show them are hooks:
//   judge(rows, record)    the program's verdict on what is drawn, and the record's lines
//   deadSquares(rows)      the cells of a legal level that are dead squares
//   linkOf(level, ..)      a link that opens a level as it is shown
//   explain()              shows what is proved
//   unanswered             what is said of a level without an answer
//   heading                whether the names of the files stand above the levels
//   of                     a number of these levels: addresses of others lead to the overview

const KEYS = [["Arrows", "choose a level; in a level: the next or previous letter or pattern"],
    ["Enter", "open the level"], ["Esc", "leave a field; back to all levels"],
    ["n, p", "next level, previous level"], ["Home, End", "first, last"],
    ["PageUp, PageDown", "four rows or ten steps at a time"], ["Space", "play, stop"],
    ["+, -", "faster, slower"], ["/", "find; Enter goes to the first level found"],
    ["s, u, r, m", "show only solved, unsolvable, refused, missing"], ["a", "show all"]];
const SLIDER_KEYS = /^(Arrow|Page|Home|End)/;
// the pause after which a step counts as the last one
const PAUSE = 250;
const ADDRESS = /^#(\d+)(?::([\w-]+))?$/;

// whether the focused element needs a key itself
function isTaken({ target, key }) {
    if (target.matches?.("input[type=range]")) return SLIDER_KEYS.test(key);
    if (target.matches?.("input, textarea")) return key !== "Escape";
    return (key === " " || key === "Enter") && target.matches?.("button, a, summary");
}

class Viewer {
    // the level that is shown, its page, and the address that it was shown for
    level = null;
    page = null;
    routed = null;
    settling = 0;
    width = innerWidth;
    constructor(element, data, hooks) {
        Object.assign(this, { element, data, hooks, levels: data.levels, of: hooks.of ?? 0 });
        for (const level of this.levels) {
            level.verdict = data.verdicts[level.number] ?? NO_VERDICT;
            level.card = null;
        }
        this.overview = new Overview(this);
        this.build();
        this.listen();
        this.route();
    }
    build() {
        const { data, overview, hooks } = this, keys = [...KEYS,
            ...hooks.deadSquares ? [["d", "in a level: show its dead squares"]] : []];
        this.status = html("p", { class: "said", role: "status" });
        this.levelPart = html("section", { class: "level", "aria-label": "Level" });
        this.help = html("dialog", { "aria-label": "Keys" }, html("h2", {}, "Keys"),
            html("dl", {}, ...keys.flatMap(([key, does]) => [html("dt", {}, key),
                html("dd", {}, does)])),
            html("form", { method: "dialog" }, html("button", {}, "Close")));
        const what = html("div", { class: "what" }, html("h1", {}, "sokoaudit report"),
            html("p", { class: "names" }, html("b", {}, data.names[0]), ` with ${data.names[1]}`));
        this.header = html("header", {}, ...hooks.heading === false ? [] : [what],
            overview.totals, overview.field,
            html("button", { class: "help", "aria-label": "keys", onclick: () => this.showKeys() },
                "?"));
        const fault = html("p", { class: "fault", role: "alert" },
            `The report isn't of these levels and answers: ${data.fault}.`);
        this.element.replaceChildren(...data.fault ? [fault] : [], this.status, this.header,
            overview.element, this.levelPart, this.help,
            html("p", { class: "foot" }, "What is drawn is what the report says. Press ",
                html("kbd", {}, "?"), " for the keys."));
    }
    listen() {
        const { overview } = this, ending = this.ending = new AbortController();
        const on = (name, does, target = window) => target.addEventListener(name, does,
            { signal: ending.signal, passive: name === "scroll" });
        on("keydown", event => this.press(event));
        on("popstate", () => this.route());
        on("scroll", () => this.level || overview.show());
        on("resize", () => this.resized());
        on("beforeprint", () => this.level || overview.print());
        on("afterprint", () => overview.printed?.remove());
        on("change", () => this.level || overview.show(true),
            matchMedia("(prefers-color-scheme: dark)"));
    }
    // ends what runs, and takes all away
    close() {
        this.ending.abort();
        clearTimeout(this.settling);
        this.page?.stop();
        this.overview.stop();
        this.element.replaceChildren();
    }

    // ---- what is shown

    // the address, or "" if it is none of these levels
    get address() {
        return (history.state?.of ?? this.of) === this.of ? location.hash : "";
    }
    // shows what the address names
    route() {
        const { address, overview } = this;
        if (this.routed === address) return;
        const isFirst = this.routed === null, before = this.level;
        const [, number, at] = ADDRESS.exec(address) ?? [];
        this.routed = address;
        if (!history.state) this.enter("replaceState");
        clearTimeout(this.settling);
        this.page?.stop();
        overview.drawing.stop();
        this.say("");
        this.page = null;
        this.level = this.levels[Number(number) - 1] ?? null;
        this.levelPart.hidden = !this.level;
        overview.element.hidden = this.header.hidden = Boolean(this.level);
        document.title = this.title;
        // the element can become shorter than it was
        if (!isFirst && this.element.getBoundingClientRect().top < 0) this.element.scrollIntoView();
        if (this.level) {
            overview.chosen = this.level;
            this.page = new LevelPage(this, this.level, at);
            if (!isFirst) this.page.heading.focus({ preventScroll: true });
        } else {
            overview.show(true);
            if (before) overview.comeBack();
        }
    }
    get title() {
        const { level, data: { names }, hooks } = this;
        return level ? `Level ${level.number} - ${names[0]}` : hooks.title
            ?? `${names[0]} - sokoaudit report`;
    }
    // goes to a level, or to the overview for 0
    go(number) {
        if (number && !this.levels[number - 1]) return;
        this.enter("pushState", number ? `#${number}` : "");
        this.route();
    }
    // enters an address into the history, as one of these levels
    enter(does, address = location.hash) {
        history[does]({ of: this.of }, "", location.href.replace(/#.*/s, "") + address);
    }
    // announces a step and puts it into the address, unless another step follows at once
    settle(at, words) {
        clearTimeout(this.settling);
        this.settling = setTimeout(() => {
            this.routed = `#${this.level.number}:${at}`;
            this.enter("replaceState", this.routed);
            this.say(words);
        }, PAUSE);
    }
    say(words) {
        this.status.textContent = words;
    }

    // ---- what the user does

    showKeys() {
        this.help.showModal();
    }
    press(event) {
        if (event.ctrlKey || event.metaKey || event.altKey || this.help.open || isTaken(event))
            return;
        const { target, key } = event, { level, page, overview } = this;
        const isText = target.matches?.("input:not([type=range]), textarea");
        const keys = {
            Escape: () => isText ? target.blur() : this.go(0), "?": () => this.showKeys(),
            ...level ? { n: () => this.go(level.number + 1),
                p: () => level.number > 1 && this.go(level.number - 1), ...page.keys }
                : overview.keys,
        };
        if (!Object.hasOwn(keys, key)) return;
        event.preventDefault();
        keys[key]();
    }
    // shows other cards if the window is higher than before, and draws them again if it is wider
    resized() {
        const isWider = this.width !== innerWidth;
        this.width = innerWidth;
        if (!this.level) this.overview.show(isWider);
    }
}

const mount = (element, data, hooks = {}) => new Viewer(element, data, hooks);
