// Drawing: a board as a picture, small on a canvas for the overview and large as SVG for a level.

const SVG = "http://www.w3.org/2000/svg";
// the limit of cells in the name of a picture
const MOST_NAMED = 60;
// how many cells are filled between two pauses
const FILLED_AT_ONCE = 2000;
// how many milliseconds a part of long work takes
const LONGEST_PART = 10;
// how round the corners of walls are, as a part of a cell
const ROUND = .22;

function svg(name, attributes, parent) {
    const element = document.createElementNS(SVG, name);
    for (const key in attributes) element.setAttribute(key, attributes[key]);
    parent?.append(element);
    return element;
}

// an HTML element with its children, texts among them
function html(name, attributes, ...children) {
    const element = document.createElement(name);
    for (const key in attributes) {
        if (key.startsWith("on")) element.addEventListener(key.slice(2), attributes[key]);
        else if (attributes[key] !== undefined) element.setAttribute(key, attributes[key]);
    }
    element.append(...children);
    return element;
}

// Work in parts: a generator runs for some milliseconds at a time, so that the page answers. New
// work replaces what still runs.
class Parts {
    // gives the value of the work to a function, and whether it is late; returns whether it isn't
    run(work, done) {
        this.stop();
        return this.part(work, done, false);
    }
    // does the same once what runs now is done
    later(work, done) {
        this.stop();
        this.timer = setTimeout(() => this.part(work, done, true));
    }
    part(work, done, isLate) {
        const end = performance.now() + LONGEST_PART;
        let step = work.next();
        while (!step.done && performance.now() < end) step = work.next();
        if (step.done) done(step.value, isLate);
        else this.timer = setTimeout(() => this.part(work, done, true));
        return step.done;
    }
    stop() {
        clearTimeout(this.timer);
    }
}

// ---- shapes

// the outline of some places: one rectangle for each run in a row
function runs(board, places) {
    let path = "";
    for (const place of [...places].sort((a, b) => a - b)) {
        if (places.has(place - 1)) continue;
        let length = 1;
        while (places.has(place + length)) length++;
        path += `M${board.column(place) - 1} ${board.row(place) - 1}h${length}v1h${-length}z`;
    }
    return path;
}

// The outline of the walls: loops along their edges, with the walls on the right and round corners.
// The corners of two blocks that touch in a point stay apart.
function outline({ width, height, stride, cells }) {
    const across = width + 1, edges = new Uint8Array(across * (height + 1)), parts = [];
    // the edges that begin at each corner of a cell, by their directions: right, down, left, up
    const ways = [[1, 0], [0, 1], [-1, 0], [0, -1]];
    const isWall = (x, y) => x >= 0 && y >= 0 && x < width && y < height
        && (cells[(y + 1) * stride + x + 1] & WALL) !== 0;
    for (let y = 0; y < height; y++) {
        for (let x = 0; x < width; x++) {
            if (!isWall(x, y)) continue;
            if (!isWall(x, y - 1)) edges[y * across + x] |= 1;
            if (!isWall(x + 1, y)) edges[y * across + x + 1] |= 2;
            if (!isWall(x, y + 1)) edges[(y + 1) * across + x + 1] |= 4;
            if (!isWall(x - 1, y)) edges[(y + 1) * across + x] |= 8;
        }
    }
    const short = number => Math.round(number * 100) / 100;
    for (let start = 0; start < edges.length; start++) {
        while (edges[start] & 1) {
            let at = start, way = 0, letter = "M";
            do {
                edges[at] &= ~(1 << way);
                at += ways[way][0] + across * ways[way][1];
                // a loop is closed where its first edge, to the right, would come next
                const next = at === start && way === 3 ? 0
                    : [(way + 1) % 4, way, (way + 3) % 4].find(it => edges[at] >> it & 1) ?? 0;
                if (next !== way) {
                    const x = at % across, y = Math.floor(at / across);
                    const [[dx, dy], [ex, ey]] = [ways[way], ways[next]];
                    parts.push(`${letter}${short(x - ROUND * dx)} ${short(y - ROUND * dy)}`
                        + `Q${x} ${y} ${short(x + ROUND * ex)} ${short(y + ROUND * ey)}`);
                    letter = "L";
                }
                way = next;
            } while (at !== start || way !== 0);
            parts.push("z");
        }
    }
    return parts.join("");
}

const middle = (board, place) => [board.column(place) - .5, board.row(place) - .5];

// what is drawn in a cell, from its middle: a ring, a box with its cross, a tick, a cross
const disc = r => (x, y) =>
    `M${x - r} ${y}a${r} ${r} 0 1 1 ${2 * r} 0a${r} ${r} 0 1 1 ${-2 * r} 0z`;
const square = (x, y) => `M${x} ${y}m-.34-.34h.68v.68h-.68z`;
const crossed = (x, y) => `${square(x, y)}m.15.15l.38.38m0-.38l-.38.38`;
const ticked = (x, y) => `M${x} ${y}m-.18 0l.14.15l.22-.28`;
const marked = (x, y) => `M${x} ${y}m-.2-.2l.4.4m0-.4l-.4.4`;
// the player, who looks to where the last step led
const looking = dir => (x, y) => {
    const [dx, dy] = STEPS[dir];
    return `M${x + .42 * dx} ${y + .42 * dy}L${x + .13 * dx - .23 * dy} ${y + .13 * dy + .23 * dx}`
        + `A.264.264 0 1 1 ${x + .13 * dx + .23 * dy} ${y + .13 * dy - .23 * dx}z`;
};

const namesOf = (board, places) => [...places].map(place => board.name(place)).join(" ");

// All places of a kind in one path, since a board may have thousands, and is drawn at each step.
function shapes(board, places, parent, kind, shape) {
    const d = [...places].map(place => shape(...middle(board, place))).join("");
    return d ? svg("path", { d, class: kind }, parent) : null;
}

// ---- words

// some cells in words: "boxes 4,3 5,3"
function listed(board, places, one, more) {
    const cells = [...places].sort((a, b) => a - b), left = cells.length - MOST_NAMED;
    if (!cells.length) return `no ${one}`;
    return `${cells.length === 1 ? one : more} ${namesOf(board, cells.slice(0, MOST_NAMED))}`
        + (left > 0 ? ` and ${left} more` : "");
}

// a position in words. `where` says where the player may be if that isn't one cell
function described(board, { boxes, players, others = [], where }) {
    const home = boxes.filter(box => board.isGoal(box));
    return [listed(board, boxes, "box", "boxes"),
        where ?? listed(board, players, "player", "players"),
        home.length ? listed(board, home, "box on a goal", "boxes on goals") : "",
        others.length ? listed(board, others, "other box", "other boxes") : ""]
        .filter(words => words).join("; ");
}

// ---- the large picture

// A large board. What stays is drawn once, and what moves by `show`.
class Picture {
    constructor(board) {
        this.board = board;
        const { width, height } = board;
        this.element = svg("svg", { viewBox: `-.1 -.1 ${width + .2} ${height + .2}`,
            class: "board", role: "img" });
        this.element.style.setProperty("--columns", width);
        svg("path", { d: board.floorPath ??= runs(board, board.room), class: "floor" },
            this.element);
        this.shade = svg("path", {}, this.element);
        svg("path", { d: board.wallPath ??= outline(board), class: "wall" }, this.element);
        shapes(board, board.goals, this.element, "goal", disc(.29));
        this.things = svg("g", {}, this.element);
    }
    // Shows a position. It has boxes and players, or `where` if the player may be in many cells; a
    // direction in which the player looks; a shade, which is a region or a zone; other boxes, which
    // are drawn faintly; arrows { from, dir, kind, title, act }; and dead squares.
    show(position) {
        const { board, things, shade } = this, { boxes, players = [], others = [] } = position;
        const home = boxes.filter(box => board.isGoal(box));
        const off = boxes.filter(box => !board.isGoal(box));
        this.element.setAttribute("aria-label", described(board, { ...position, players }));
        const shaded = position.shade ?? new Set();
        shade.setAttribute("d", runs(board, shaded));
        shade.setAttribute("class", position.shadeKind ?? "region");
        shade.dataset.cells = namesOf(board, shaded);
        things.replaceChildren();
        shapes(board, others, things, "other", square)
            ?.setAttribute("data-cells", namesOf(board, others));
        shapes(board, off, things, "box", crossed);
        shapes(board, home, things, "box home", square);
        shapes(board, home, things, "tick", ticked);
        shapes(board, players.filter(place => place >= 0), things, "player",
            position.dir ? looking(position.dir) : disc(.27));
        shapes(board, position.dead ?? [], things, "dead", marked)
            ?.setAttribute("data-cells", namesOf(board, position.dead));
        for (const arrow of position.arrows ?? []) drawArrow(board, arrow, things);
        return this;
    }
}

// An arrow, a little to the left of its path, so that opposite pushes don't overlap.
function drawArrow(board, { from, dir, kind, title, act, length = 1.8 }, parent) {
    const [dx, dy] = STEPS[dir], [cx, cy] = middle(board, from);
    const x = cx + .17 * dy, y = cy - .17 * dx, shaft = length - .25;
    const group = svg("g", { class: `arrow ${kind}`, "data-at": board.name(from),
        "data-dir": dir }, parent);
    svg("title", {}, group).textContent = title;
    svg("path", { d: `M${x} ${y}l${dx * shaft} ${dy * shaft}`, class: "shaft" }, group);
    svg("path", { d: `M${x + dx * length} ${y + dy * length}`
        + `l${-dx * .3 - dy * .18} ${-dy * .3 + dx * .18}l${dy * .36} ${-dx * .36}z`,
    class: "head" }, group);
    if (act) group.addEventListener("click", act);
}

// ---- the small picture

// Draws a small board on a canvas, in the colours of the page. Pauses often, since a board may be
// large.
function* sketch(canvas, board, colours) {
    const scale = window.devicePixelRatio || 1;
    // one that isn't in the page yet has no size
    const width = canvas.clientWidth || CARD.width - 18, height = canvas.clientHeight || 104;
    const cell = Math.min(width / board.width, height / board.height, 14) * scale;
    canvas.width = width * scale;
    canvas.height = height * scale;
    const pen = canvas.getContext("2d");
    pen.translate((canvas.width - cell * board.width) / 2,
        (canvas.height - cell * board.height) / 2);
    const fill = function* (places, colour, inset) {
        const side = cell * (1 - 2 * inset) + (inset ? 0 : .6);
        let left = FILLED_AT_ONCE;
        for (const place of places) {
            const x = board.column(place) - 1, y = board.row(place) - 1;
            pen.fillStyle = colour(place);
            pen.fillRect((x + inset) * cell, (y + inset) * cell, side, side);
            if (left-- === 0) {
                left = FILLED_AT_ONCE;
                yield;
            }
        }
    };
    yield* fill(board.room, () => colours.floor, 0);
    yield* fill(board.placesOf(WALL), () => colours.wall, 0);
    yield* fill(board.goals, () => colours.goal, .3);
    yield* fill(board.boxes, box => board.isGoal(box) ? colours.home : colours.box, .14);
    pen.fillStyle = colours.player;
    for (const place of board.players) {
        const [x, y] = middle(board, place);
        pen.beginPath();
        pen.arc(x * cell, y * cell, cell * .32, 0, 7);
        pen.fill();
    }
}
