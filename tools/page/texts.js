// Reads the two texts for the page: titles, and lines to draw. Where the levels and the records
// are, the program says. Nothing here decides what counts: that is the report, and a level that is
// opened is judged once more from what is drawn. A text is a string with one character for each
// byte, and a span of it is { at, end }.

const MOST_BYTES = 33554432, MOST_SIDE = 255, MOST_TITLE = 1000, MOST_CACHED = 100000;

// What a row is: a wall and no other characters than those of levels. The thread looks for rows in
// whole texts; a mark may stand before the first one.
const CHARACTERS = "-#@+$*._ ", ROW = "[-@+$*._ ]*#[-#@+$*._ ]*", MARK = "\\xef\\xbb\\xbf|\\ufeff";
const IS_PLAIN = new RegExp(`^[${CHARACTERS}]*$`), IS_ROW = new RegExp(`^${ROW}$`);
const inLines = row => new RegExp(`(?:^(?:${MARK})?|\\n)(?:${row})(?:\\r?\\n|$)`);
const HAS_ROW = inLines(ROW);
const isRow = line => IS_ROW.test(line);
// how answers begin, alone and within a text
const HEADER = new RegExp(`^(?:${MARK})?sokoban-answers`),
    INNER_HEADER = /\nsokoban-answers [12]\r?\n/;

function textOf(bytes) {
    const parts = [];
    for (let at = 0; at < bytes.length; at += 32768) {
        parts.push(String.fromCharCode.apply(null, bytes.subarray(at, at + 32768)));
    }
    return parts.join("");
}

function bytesOf(text) {
    const bytes = new Uint8Array(text.length);
    for (let at = 0; at < text.length; at++) bytes[at] = text.charCodeAt(at);
    return bytes;
}

const isBlank = line => !/[^ \t\n\r\v\f]/.test(line);
const isBlankByte = byte => byte === 32 || byte >= 9 && byte <= 13;

// calls a function with each line of a text, its number, where it begins and the next one, and 1. A
// CR before an LF belongs to the end of the line. If blank lines are joined, those in a row are
// given as one, with their count, because a text may have millions
function eachLine(text, does, at = 0, areBlanksJoined = false) {
    for (let number = 1, count = 1; at < text.length; number += count) {
        const found = text.indexOf("\n", at);
        let next = found < 0 ? text.length : found + 1, end = found < 0 ? next : found;
        if (found > at && text.charCodeAt(found - 1) === 13) end--;
        const line = text.slice(at, end);
        count = 1;
        if (areBlanksJoined && text.charCodeAt(at) <= 32 && isBlank(line)) {
            for (let to = next, byte; isBlankByte(byte = text.charCodeAt(to)); to++) {
                if (byte === 10) count++, next = to + 1;
            }
        }
        does(line, number, at, next, count);
        at = next;
    }
}

const few = numbers => numbers.slice(0, 12).join(", ") + (numbers.length > 12 ? ", .." : "");
const fewOf = (one, numbers) => `${one}${numbers.length > 1 ? "s" : ""} ${few(numbers)}`;

// The names of files that `sokotool check` wrote beside a collection and its answers. Its memory
// shows that it did.
function copiesIn(names) {
    const kept = names.flatMap(it => /^(.*\.)memory$/.exec(it)?.[1]
        ?? []).filter(it => names.includes(`${it}xsb`));
    return names.filter(it =>
        kept.some(base => it.startsWith(base) && !/^(?:xsb|answers)$/.test(it.slice(base.length))));
}

function linesOf(text) {
    const lines = [];
    eachLine(text, line => lines.push(line));
    return lines;
}

// ---- titles, by the rules of sokotool's levels.py

const utf8 = words => textOf(new TextEncoder().encode(words));
const SPACE = "[ \\t\\n\\r\\v\\f]", COLON = "[ \\t]*(?::|\\xef\\xbc\\x9a)",
    EQUALS = "[ \\t]*(?:=|:|\\xef\\xbc\\x9a)";
const NAMES_OF_TITLES = utf8("titel|titre|titolo|t\u00edtulo|titulo|tytu\u0142|name|nom|nome|level|"
    + "(?:\u043d|\u041d)\u0430\u0437\u0432\u0430\u043d\u0438\u0435|\u6807\u9898|\u6a19\u984c|"
    + "\u30bf\u30a4\u30c8\u30eb");
const keyed = keys => new RegExp(`^(?:[-*>]|${SPACE})*(?:${keys})${EQUALS}[ \\t]*`);
const TITLE = keyed("title"), NAME = keyed(NAMES_OF_TITLES);
const KEY =
    new RegExp(`^(?:[-*>;#]|${SPACE})*[A-Za-z\\x80-\\xff][A-Za-z\\x80-\\xff-]*${COLON}`);
const MARKUP = "<(?:[/?]|!(?:--\\s*)?)?[A-Za-z][^<>]*>|\\[/?(?:b|i|u|s|h|pre|code|quote|spoiler|size"
    + "|color|center|url|img|list)(?:=[^\\]]*)?\\]";
const TAGS = new RegExp(`^(?:${MARKUP}|\`\`\`.*|~~~.*|\\\\(?:begin|end)\\{\\w+\\*?\\}`
    + "|[^A-Za-z0-9\\x80-\\xff])*$", "is");
// a tag of no web page that gives what it holds a name
const NAMING_TAG = new RegExp("^<(?!(?:meta|input|a|img|link|param|form|button|select|iframe|object"
    + "|div|span|table|td|p)\\b)[A-Za-z][\\w:.-]*\\s[^<>]*?\\b(?:name|title)\\s*=\\s*"
    + "[\"']([^<>\"']+)[\"'][^<>]*>$", "i");
// what is around a heading: marks of wikis and chats, or a command
const AROUND = new RegExp("^(?:(={2,}|\\*{2,}|_{2,}|'{2,})\\s*([^\\s=*_'](?:.*[^\\s=*_'])?)\\s*\\1"
    + "|\\\\[A-Za-z]+\\*?\\{([^{}]+)\\})$", "s");
const QUOTED = /^(["'])(.*)\1$/s;
// tags, and the mark of a heading or of an entry in a list
const MARKS = new RegExp(`${MARKUP}|^(?:#+|[-*>])[ \\t]+`, "gi"), ENTRY = /^[-*+][ \t]/;
// lines of a chat, with a time or a name; of a table; and marks of a merge
const NO_TITLE = new RegExp("^(?:\\[?\\d{1,2}:\\d\\d(?::\\d\\d)?\\]?\\s"
    + "|(?:[^[\\]]{1,40}, )?\\[[^[\\]]{1,20}\\s\\d{1,2}:\\d\\d(?::\\d\\d)?\\]"
    + "|<(?!(?:[a-z]|h[1-6]|pre|code|center|div|span|font|em|strong|title|tt|td|th|tr|li|small|big"
    + "|br|hr)\\b)[\\w.-]+>\\s|[<>=]{7}|@@ |\\||[^\\s,;]*[,;][^\\s,;]*[,;]\\S*\\s*$"
    + "|[^\\t]+\\t[^\\t]+\\t)", "i");
const AUTHOR = /^(?:by|author)\b/i;
// letters alone, and what of them is a title: digits, or a word whose last letter is no push
const ONLY_LETTERS = /^[lurdLURD0-9() \t]*$/, ONLY_DIGITS = /^(?:[0-9 \t]*|[LURD][lurd]{2,})$/;
const SOLUTION = new RegExp(
    `^[^\\w'\\x80-\\xff]*(?:[A-Za-z'\\x80-\\xff]+${SPACE}+){0,2}[\\x80-\\xff]*solution\\b`
        + "(?:[^:=]*[:=]|\\W*[0-9(])", "i");
// The flag i would take \xe3 for \xc3 in the bytes of UTF-8.
const lowered = line => line.replace(/[A-Z]+/g, letters => letters.toLowerCase());
const stripped = line => line.replace(/^[ \t\n\r\v\f]+|[ \t\n\r\v\f]+$/g, "");
// what a line says after a key, or null
function after(key, line, low) {
    const match = key.exec(low);
    if (!match) return null;
    const said = line.slice(match[0].length);
    return /=[ \t]*$/.test(match[0]) ? QUOTED.exec(stripped(said))?.[2] ?? said : said;
}

// the title that a line of text is, or ""
function titleIn(line) {
    let text = stripped(line.replace(/^[; \t\v\f]+/, ""));
    const named = NAMING_TAG.exec(text);
    if (named) return stripped(named[1]);
    if (KEY.test(line) || TAGS.test(text) || ONLY_LETTERS.test(line) || NO_TITLE.test(text)
        || /[:,]$/.test(text)) return "";
    // A page has its own title before its first heading.
    const end = text.toLowerCase().indexOf("</title>") + 8;
    if (end > 7 && stripped(text.slice(end))) text = text.slice(end);
    for (let bare; (bare = stripped(text.replace(MARKS, ""))) !== text;) text = bare;
    const around = AROUND.exec(text);
    if (around) text = stripped(around[2] ?? around[3]);
    return SOLUTION.test(line) || isRow(text) ? "" : text;
}

// text that is safe to show: UTF-8 where it is, otherwise Windows-1252
function shown(text) {
    const bytes = bytesOf(text);
    let words;
    try {
        words = new TextDecoder("utf-8", { fatal: true, ignoreBOM: true }).decode(bytes);
    } catch {
        // Five bytes are no character of Windows-1252; sokotool takes the text for Latin-1 then.
        words = /[\x81\x8d\x8f\x90\x9d]/.test(text) ? text
            : new TextDecoder("windows-1252").decode(bytes);
    }
    return words.replace(/[\p{C}\p{Z}]/gu, " ");
}

// The text between two levels: its last titles with a key, and the lines that may be a title above
// the next level: letters or digits alone, or the last line of text, or several comment lines.
class Gap {
    constructor(isFirst) {
        Object.assign(this, { isFirst, title: null, name: null, above: [], wasAbove: false,
            last: null, blanks: 0, short: null, count: 0, only: "", isAtOnce: false, before: "" });
    }
    add(line, count, { title, name, above, isBlank: isNothing, isShort }) {
        this.title = title ?? this.title;
        this.name = name ?? this.name;
        if (above) {
            const goesOn = this.wasAbove
                && (line[0] === ";" && this.above.at(-1).line[0] === ";" || AUTHOR.test(above));
            if (!goesOn) this.above = [];
            const isEntry = ENTRY.test(line) && ENTRY.test(this.before);
            this.above.push({ line, above, isEntry });
        }
        this.wasAbove = Boolean(above);
        this.before = line;
        if (isNothing) {
            this.blanks += count;
            return;
        }
        if (this.short && !isShort && TAGS.test(line)) {
            this.blanks++;
            return;
        }
        if (!this.count++) Object.assign(this, { only: above, isAtOnce: !this.blanks });
        this.short = isShort ? { line, before: this.last, blanks: this.blanks } : null;
        this.last = { line, isShort };
        this.blanks = 0;
    }
    get keyed() {
        return (this.title === null ? "" : shown(this.title).trim())
            || (this.name === null ? "" : shown(this.name).trim());
    }
    get plain() {
        if (this.short && this.isTitle()) return shown(stripped(this.short.line));
        if (this.above.at(-1)?.isEntry) return "";
        const titles = this.above.map(({ above }) => above);
        return shown(titles.find(title => !AUTHOR.test(title)) ?? titles.at(-1) ?? "");
    }
    // whether letters or digits alone are nearer to the level below than to what is above, which is
    // no solution
    isTitle() {
        const { line, before, blanks: above } = this.short, below = this.blanks;
        const isNumber = ONLY_DIGITS.test(line);
        if (before) {
            const isSolution = before.isShort || lowered(before.line).includes("solution");
            return !isSolution && (isNumber || !below || above > below);
        }
        return this.isFirst || above > below || isNumber && above === below;
    }
}

// ---- levels

// begins a line that names the file whose text follows, as sokotool writes it
const FILE = "; File: ";

// what a line between levels says: with the key Title, with another key, or as plain text
function sayingOf(line) {
    const isShort = line.length < MOST_TITLE, low = lowered(isShort ? line : "");
    const title = after(TITLE, line, low), name = title === null ? after(NAME, line, low) : null;
    const isPlain = isShort && title === null && name === null,
        above = isPlain ? titleIn(line) : "";
    return { title, name, above, isBlank: isBlank(line),
        isShort: isPlain && !above && !isBlank(line) && ONLY_LETTERS.test(line) };
}

// The levels at these spans of a text: number, first line, title and span. Some lines, given by
// their numbers, are no titles without a key. The text of each file that was read into this one
// counts by itself.
function levelsIn(text, spans, isNoTitle = () => false) {
    const levels = [], sayings = new Map();
    let file = { levels: [], gaps: [new Gap(true)] };
    const start = text.startsWith("\xef\xbb\xbf") ? 3 : 0;
    eachLine(text, (line, number, at, _, count) => {
        const next = spans[levels.length];
        if (at === next?.at) {
            levels.push({ number: levels.length + 1, line: number, title: "", ...next });
            file.levels.push(levels.at(-1));
            file.gaps.push(new Gap(false));
        } else if (!(at < levels.at(-1)?.end)) {
            let saying = sayings.get(line);
            if (!saying) {
                saying = sayingOf(line);
                if (sayings.size < MOST_CACHED) sayings.set(line, saying);
            }
            const { title, name } = saying;
            if (line.startsWith(FILE)) {
                nameLevels(file);
                file = { levels: [], gaps: [new Gap(false)] };
            }
            if (title !== null || name !== null || !isNoTitle(number))
                file.gaps.at(-1).add(line, count, saying);
        }
    }, start, true);
    nameLevels(file);
    return levels;
}

// Gives the levels of a file their titles, of the gaps above, between and below them.
function nameLevels({ levels, gaps }) {
    const titles = gaps.map(gap => gap.keyed), last = titles.at(-1);
    const areAbove = titles[0] && !last
        && (levels.length === 1 || titles.slice(1, -1).some(it => it));
    // each has one line directly below it and apart from the next level, and nothing is above
    const areBelow = levels.length > 1 && !titles.some(it => it) && !gaps[0].above.length
        && gaps.slice(1).every((it, i) => it.isAtOnce && it.only && it.count === 1
            && (it.blanks || i === levels.length - 1));
    levels.forEach((level, i) => level.title = titles[areAbove ? i : i + 1]
        || (areBelow ? shown(gaps[i + 1].only) : gaps[i].plain));
}

// The rows in a span of bytes, for a drawing: those of a level that is too large are cut.
function rowsIn(bytes, { at, end }) {
    const rows = [];
    while (at < end && rows.length < MOST_SIDE) {
        const found = bytes.indexOf(10, at), stop = found < 0 || found >= end ? end : found;
        const last = found === stop && stop > at && bytes[stop - 1] === 13 ? stop - 1 : stop;
        rows.push(textOf(bytes.subarray(at, Math.min(last, at + MOST_SIDE))));
        at = stop + 1;
    }
    return rows;
}

// ---- both texts in one

// Parts a text into its levels, and its answers, or null. Answers begin with a header and end
// before the levels that follow their last record. The last ones count.
function parted(text) {
    const levels = [], find = new RegExp(INNER_HEADER, "g");
    let answers = null, at = 0;
    for (let begin = HEADER.test(text) ? 0 : -1; ;) {
        if (begin < 0) {
            find.lastIndex = Math.max(0, at - 1);
            const inner = find.exec(text);
            if (!inner) break;
            begin = inner.index + 1;
        }
        find.lastIndex = begin;
        const next = find.exec(text),
            block = text.slice(begin, next ? next.index + 1 : text.length);
        const row = HAS_ROW.exec(block),
            end = row ? block.lastIndexOf("\nend\n", row.index + 1) : -1;
        answers = end < 0 ? block : block.slice(0, end + 5);
        levels.push(text.slice(at, begin));
        at = begin + answers.length;
        begin = -1;
    }
    levels.push(text.slice(at));
    return { levels: levels.filter(it => it).join("\n"), answers };
}

// ---- records

// the lines of a body, which begins with this line: pairs of a line's number and the line
function bodyIn(text, first) {
    const body = [];
    eachLine(text, (line, number) => line && line[0] !== ";"
        && body.push([first + number - 1, line]));
    return body;
}

// An answers text with made records put into it for the levels that have none: each after the
// record of the level before, so that what stands between the old ones stays. A made zone raises a
// header of version 1, which changes what old records mean. The records of both texts are those
// that the program found.
function mergedAnswers(text, records, made, found) {
    const parts = [], added = [];
    const start = text.indexOf("\n") + 1 || text.length, levels = [...records.keys()];
    let head = text.slice(0, start).replace(/\n?$/, "\n"), from = start, isRaised = false, next = 0;
    for (const [level, { at, end }] of found) {
        if (records.has(level)) continue;
        while (levels[next] < level) next++;
        const to = next ? records.get(levels[next - 1]).end : start, record = made.slice(at, end);
        parts.push(text.slice(from, to).replace(/([^\n])$/, "$1\n"), record);
        if (/\nzone /.test(record) && / 1\r?\n$/.test(head)) {
            head = head.replace("1", "2");
            isRaised = records.size > 0;
        }
        from = to;
        added.push(level);
    }
    return { text: added.length ? head + parts.join("") + text.slice(from) : text, added,
        isRaised };
}

// ---- the data of the viewer's page

function verdictsIn(report) {
    const verdicts = {};
    for (const line of linesOf(report)) {
        const [word, number, status, ...words] = line.split(" ");
        if (word === "level") verdicts[number] = { status, words, line };
    }
    return verdicts;
}

// A level as the viewer reads it. Its rows are made when they are asked for.
class LevelData {
    #bytes;
    #span;
    #rows;
    constructor({ number, line, file, title, at, end }, bytes) {
        Object.assign(this, { number, line, file, title });
        this.#bytes = bytes;
        this.#span = { at, end };
    }
    get rows() {
        return this.#rows ??= rowsIn(this.#bytes, this.#span);
    }
    toJSON() {
        const { number, line, file, title, rows } = this;
        return { number, line, file, title, rows };
    }
}

// A record as the viewer reads it: its kind, the bytes of its body, the number of their first line,
// and their lines, which are made when they are asked for.
class RecordData {
    #bytes;
    #span;
    #body;
    constructor({ kind, line, body, bodyEnd }, bytes) {
        Object.assign(this, { kind, line });
        this.#bytes = bytes;
        this.#span = [body, bodyEnd];
    }
    get bytes() {
        return this.#bytes.subarray(...this.#span);
    }
    get body() {
        return this.#body ??= bodyIn(textOf(this.bytes), this.line);
    }
    set body(body) {
        this.#body = body;
    }
    toJSON() {
        return { kind: this.kind, body: this.body };
    }
}

const SLICE = 500, LONGEST_PIECE = 1 << 16;
// The lines of a record in slices, so that no message is long to read. A long line of letters is
// cut into several with the same number.
function slicesOfBody(body, kind) {
    const slices = [];
    let left = 0;
    for (const [number, line] of body) {
        for (let at = 0; at < line.length; at += LONGEST_PIECE) {
            const piece = kind === "solution" ? line.slice(at, at + LONGEST_PIECE) : line;
            if (left <= 0) slices.push([]), left = LONGEST_PIECE;
            left -= piece.length + 100;
            slices.at(-1).push([number, piece]);
            if (piece === line) break;
        }
    }
    return slices;
}

// A result in slices, so that no message is long to read: some levels, the records of some, and the
// verdicts on some.
function slicesOf({ found, records, report }) {
    const all = [...records], verdicts = Object.entries(verdictsIn(report)), slices = [];
    for (let at = 0; at < Math.max(1, found.length); at += SLICE) {
        slices.push({ found: found.slice(at, at + SLICE), records: all.slice(at, at + SLICE),
            verdicts: verdicts.slice(at, at + SLICE) });
    }
    return slices;
}

// The data of the viewer's page, made of slices. The two texts are bytes. Pauses after each slice.
function* dataOf({ names, slices, levels, answers }) {
    const data = { names, fault: "", verdicts: {}, levels: [], records: {}, sources: {} };
    for (const { found, records, verdicts } of slices) {
        for (const it of found) data.levels.push(new LevelData(it, levels));
        for (const [level, record] of records)
            data.records[level] = new RecordData(record, answers);
        for (const [level, verdict] of verdicts) data.verdicts[level] = verdict;
        yield;
    }
    return data;
}
