// Turns the bytes of files into texts: archives, encodings, and SLC as plain lines. All of it runs
// in the program's thread.

const MOST_UNPACKED = MOST_BYTES, MOST_NESTED = 2, LONGEST_HEAD = 1 << 20;
const IS_HIDDEN = /(?:^|\/)(?:\.|__MACOSX)/;
const ENTITIES = { nbsp: " ", lt: "<", gt: ">", quot: "\"", amp: "&", apos: "'" };

// ---- archives

// Unpacks bytes. `room.left` is how many more may come out of the whole archive, since a few
// thousand bytes can hold gigabytes.
async function unpacked(bytes, form, room) {
    const reader = new Blob([bytes]).stream().pipeThrough(
        new DecompressionStream(form)).getReader(), parts = [];
    for (let it = await reader.read(); !it.done; it = await reader.read()) {
        room.left -= it.value.length;
        if (room.left < 0) throw new Error(`it has more than ${MOST_UNPACKED} bytes`);
        parts.push(it.value);
    }
    return new Uint8Array(await new Blob(parts).arrayBuffer());
}

const natural = new Intl.Collator("en", { numeric: true });

// The files in a zip, in the order of their names, with numbers in them ordered by value.
async function unzipped(bytes, room) {
    const view = new DataView(bytes.buffer, bytes.byteOffset, bytes.length), files = [];
    let end = bytes.length - 22;
    while (end >= 0 && view.getUint32(end, true) !== 0x06054b50) end--;
    if (end < 0) throw new Error("the archive has no end");
    let at = view.getUint32(end + 16, true);
    for (let left = view.getUint16(end + 10, true); left; left--) {
        const [flags, form, length] = [8, 10, 28].map(offset => view.getUint16(at + offset, true));
        const [size, local] = [20, 42].map(offset => view.getUint32(at + offset, true));
        const { text: name } = readBytes(bytes.subarray(at + 46, at + 46 + length));
        const first = local + 30 + view.getUint16(local + 26, true)
            + view.getUint16(local + 28, true);
        const packed = bytes.subarray(first, first + size),
            isFile = !name.endsWith("/") && !IS_HIDDEN.test(name);
        if (isFile && (form && form !== 8 || flags & 1))
            throw new Error(`${name} is encrypted, or packed in an unknown way`);
        if (isFile) files.push({ name,
            bytes: form ? await unpacked(packed, "deflate-raw", room) : packed });
        at += 46 + length + view.getUint16(at + 30, true) + view.getUint16(at + 32, true);
    }
    if (!files.length) throw new Error("it has no files");
    return files.sort((a, b) => natural.compare(a.name, b.name));
}

// ---- encodings

// The same table as in sokotool's encodings.py: which bytes are usual in each encoding, which are
// less so, and which others are a character; how much its characters count; and the name that a
// decoder has for it. They are in the order in which equal guesses count.
const MOST_GUESSED = 1 << 16, LEAST_GUESS = .5, MARGIN = .05, CAPITALS = .9, PAIRS = .93;
const NO_LETTER_BEFORE = "(?<![A-Za-z\xc0-\xff])", NO_LETTER_AFTER = "(?![A-Za-z\xc0-\xff])";
function european(letters, signs) {
    const few = `[${letters}\x92]{1,2}`;
    return [`(?<=[A-Za-z])(?:${few}(?![\x80-\xff])|\x94(?![A-Za-z]))`
        + `|(?<![\x80-\xff])${few}(?=[A-Za-z])`
        + `|${NO_LETTER_BEFORE}[${letters}${signs}]{1,2}${NO_LETTER_AFTER}`
        + `|(?<![A-Za-z])[${signs}]`];
}
const cyrillic = (capitals, small) => [
    `${NO_LETTER_BEFORE}[${capitals}]?[${small}]+${NO_LETTER_AFTER}`
        + `|[\x84\x85\x91-\x97\xab\xb9\xbb]${NO_LETTER_AFTER}`,
    `${NO_LETTER_BEFORE}[${capitals}]{2,}${NO_LETTER_AFTER}`];
const pattern = ([usual, other = "(?!)", rare = "(?!)"]) =>
    new RegExp(`(${usual})|(${other})|${rare}|[\x80-\xff]`, "g");
const ENCODINGS = Object.entries({
    "Windows-1252": ["windows-1252", 1, european("\xc0-\xd6\xd8-\xf6\xf8-\xff",
        "\x80\x85\x91-\x97\x99\xa1-\xa3\xa7\xa9\xab\xae\xb0-\xb3\xb7\xbb-\xbf\xd7")],
    "Windows-1251": ["windows-1251", 1,
        cyrillic("\xc0-\xdf\xa8\xaa\xaf\xb2", "\xe0-\xff\xb3\xb8\xba\xbf")],
    "KOI8-R": ["koi8-r", 1, cyrillic("\xe0-\xff\xb3", "\xc0-\xdf\xa3")],
    GB18030: ["gb18030", PAIRS,
        ["[\xa1-\xa3\xb0-\xd7][\xa1-\xfe]", , "[\x81-\xfe][0-9@-~\x80-\xfe]"]],
    "EUC-JP": ["euc-jp", PAIRS,
        ["[\xa1\xa3-\xa5\xb0-\xcf][\xa1-\xfe]", , "[\xa1-\xfe][\xa1-\xfe]"]],
    Big5: ["big5", PAIRS, ["[\xa1-\xc6][@-~\xa1-\xfe]", , "[\x81-\xfe][@-~\xa1-\xfe]"]],
    "Shift-JIS": ["shift_jis", PAIRS, ["[\x81-\x83\x88-\x97][@-~\x80-\xfc]", "[\xa6-\xdf]{2,}",
        "[\x81-\x9f\xe0-\xfc][@-~\x80-\xfc]"]],
    CP437: ["", 1, european("\x80-\xa5\xe1", "\xab-\xae\xf1\xf8\xfd")],
}).map(([name, [label, part, forms]]) => ({ name, label, part, find: pattern(forms) }));
// the characters of CP437 beyond ASCII, which no browser decodes
const CP437 = ""
    + "\u00c7\u00fc\u00e9\u00e2\u00e4\u00e0\u00e5\u00e7\u00ea\u00eb\u00e8\u00ef\u00ee\u00ec\u00c4"
    + "\u00c5\u00c9\u00e6\u00c6\u00f4\u00f6\u00f2\u00fb\u00f9\u00ff\u00d6\u00dc\u00a2\u00a3\u00a5"
    + "\u20a7\u0192\u00e1\u00ed\u00f3\u00fa\u00f1\u00d1\u00aa\u00ba\u00bf\u2310\u00ac\u00bd\u00bc"
    + "\u00a1\u00ab\u00bb\u2591\u2592\u2593\u2502\u2524\u2561\u2562\u2556\u2555\u2563\u2551\u2557"
    + "\u255d\u255c\u255b\u2510\u2514\u2534\u252c\u251c\u2500\u253c\u255e\u255f\u255a\u2554\u2569"
    + "\u2566\u2560\u2550\u256c\u2567\u2568\u2564\u2565\u2559\u2558\u2552\u2553\u256b\u256a\u2518"
    + "\u250c\u2588\u2584\u258c\u2590\u2580\u03b1\u00df\u0393\u03c0\u03a3\u03c3\u00b5\u03c4\u03a6"
    + "\u0398\u03a9\u03b4\u221e\u03c6\u03b5\u2229\u2261\u00b1\u2265\u2264\u2320\u2321\u00f7\u2248"
    + "\u00b0\u2219\u00b7\u221a\u207f\u00b2\u25a0\u00a0";

// The encoding in which the most bytes of a text are usual.
function guessed(text) {
    const found = ENCODINGS.map(({ part, find }) => {
        let good = 0, total = 0;
        // Not all characters of two bytes are alone between ASCII.
        if (part === PAIRS && !/[\x80-\xff]{2}/.test(text)) return 0;
        for (const [{ length }, usual, other] of text.slice(0, MOST_GUESSED).matchAll(find)) {
            total += length;
            good += usual ? length : other ? length * CAPITALS : 0;
        }
        return total ? part * good / total : 0;
    });
    const best = found.indexOf(Math.max(...found));
    return ENCODINGS[found[best] >= Math.max(LEAST_GUESS, found[0] + MARGIN) ? best : 0];
}

// bytes in a guessed encoding
const decoded = (bytes, { label }) => label ? new TextDecoder(label).decode(bytes)
    : textOf(bytes).replace(/[\x80-\xff]/g, it => CP437[it.charCodeAt(0) - 128]);

// The text of bytes that are UTF-8 in part, and the encoding of the other lines.
const CHARACTER = /[\xc2-\xdf][\x80-\xbf]|[\xe0-\xef][\x80-\xbf]{2}|[\xf0-\xf4][\x80-\xbf]{3}/g;
function mixedText(bytes) {
    const text = textOf(bytes), parts = [], others = [];
    for (let at = 0, end; at < text.length; at = end) {
        end = text.indexOf("\n", at) + 1 || text.length;
        const line = text.slice(at, end),
            isUtf8 = !/[\x80-\xff]/.test(line.replace(CHARACTER, ""));
        if (!isUtf8 && others.length < MOST_GUESSED) others.push(line);
        if (isUtf8 === parts.at(-1)?.isUtf8) parts.at(-1).end = end;
        else parts.push({ at, end, isUtf8 });
    }
    const encoding = guessed(others.join(""));
    return { encoding: encoding.name, text: parts.map(({ at, end, isUtf8 }) => {
        const some = bytes.subarray(at, end);
        return isUtf8 ? new TextDecoder("utf-8", { ignoreBOM: at > 0 }).decode(some)
            : decoded(some, encoding);
    }).join("") };
}

// The encoding with two or four bytes to a character that zero bytes at fixed places or a mark
// show, or "".
function wideEncodingOf(bytes) {
    const head = bytes.subarray(0, 4096 & ~3), zeros = [0, 0, 0, 0],
        some = Math.ceil(head.length / 4), mark = textOf(head.subarray(0, 2));
    head.forEach((byte, i) => zeros[i % 4] += byte === 0);
    const areZero = places => places.every(it => zeros[it] > some * .8);
    if (areZero([2, 3])) return "utf-32le";
    if (areZero([0, 1])) return "utf-32be";
    if (mark === "\xff\xfe" || zeros[1] + zeros[3] > some * 1.2) return "utf-16le";
    return mark === "\xfe\xff" || zeros[0] + zeros[2] > some * 1.2 ? "utf-16be" : "";
}

function utf32Text(bytes, isLittle) {
    const view = new DataView(bytes.buffer, bytes.byteOffset), parts = [];
    for (let at = 0; at + 4 <= bytes.length; at += 4)
        parts.push(String.fromCodePoint(Math.min(view.getUint32(at, isLittle), 0x10ffff)));
    return parts.join("");
}

// The text of some bytes, and the encoding if it isn't UTF-8. Zero bytes that fill a file up are
// left out.
function readBytes(bytes) {
    let end = bytes.length;
    while (end > 4 && !bytes[end - 1] && !bytes[end - 4]) end--;
    if (bytes.length - end > 4) bytes = bytes.subarray(0, end);
    const wide = wideEncodingOf(bytes);
    if (wide.startsWith("utf-32"))
        return { text: utf32Text(bytes, wide === "utf-32le"), encoding: "utf-32" };
    if (wide) return { text: new TextDecoder(wide).decode(bytes), encoding: wide };
    try {
        return { text: new TextDecoder("utf-8", { fatal: true }).decode(bytes), encoding: "" };
    } catch {
        return mixedText(bytes);
    }
}

// ---- SLC

const isXml = text => /^\s*<(?:\?xml|!--|!DOCTYPE(?! html)|SokobanLevels|LevelCollection)/i.test(
    text.slice(0, 400)) && /<(?:[\w.-]+:)?Level\b/i.test(text);

// text with its entities written out
const unescaped = text => text.includes("&")
    ? text.replace(/&(?:#(\d{1,7})|#x([\da-f]{1,6})|([a-z]+));/gi, (whole, decimal, hex, name) => {
    const code = name ? 0 : decimal ? Number(decimal) : parseInt(hex, 16);
    return name ? ENTITIES[name.toLowerCase()] ?? whole : code
        && code <= 0x10ffff ? String.fromCodePoint(code) : whole;
}) : text;

const TAG = /<(\/?)(?:[\w.-]+:)?([\w.-]+)((?:[^<>"']|"[^"<]*"|'[^'<]*')*)>/y;
const ATTRIBUTE = /([\w.:-]+)\s*=\s*(?:"([^"]*)"|'([^']*)')/g;

// The pieces of XML: a tag's name, whether it ends an element, and its attributes; or a text; or a
// remark. Anything else is skipped.
function* xmlPieces(text) {
    for (let at = 0; at < text.length;) {
        const to = (mark, more) => {
            const found = text.indexOf(mark, at);
            return found < 0 ? text.length : found + more;
        };
        const mark = ["<!--", "<![CDATA[", "<?", "<!", "<", ""].find(it => text.startsWith(it, at)),
            begin = at;
        TAG.lastIndex = at;
        const tag = mark === "<" ? TAG.exec(text) : null;
        if (mark === "<!--") at = to("-->", 3),
            yield { remark: text.slice(begin + 4, at - 3), begin };
        else if (mark === "<![CDATA[")
            at = to("]]>", 3), yield { text: text.slice(begin + 9, at - 3), begin };
        else if (mark === "<?" || mark === "<!") at = to(">", 1);
        else if (tag) {
            at += tag[0].length;
            yield { name: tag[2].toLowerCase(), isEnd: Boolean(tag[1]),
                isEmpty: tag[3].endsWith("/"), words: tag[3], begin };
        } else {
            const next = text.indexOf("<", at + 1);
            at = next < 0 ? text.length : next;
            yield { text: unescaped(text.slice(begin, at)), begin, isStray: mark === "<" };
        }
    }
}

// The lines of an SLC text as if it were plain: of each level its rows, its title, its remarks, and
// its solutions with a heading. A text that is cut or torn is read as far as it goes.
function slcLines(text, faults) {
    const lines = [], open = [];
    let level = null, into = null, at = 0, number = 1, isWhole = true;
    const isRow = name => name === "l" || name === "row",
        isSolution = name => /solution|lurd/.test(name);
    const end = () => {
        if (!level) return;
        const put = words => lines.push(
            { number: level.number, line: words.replace(/[\r\n]+/g, " ") });
        put("");
        for (const row of level.rows.length ? level.rows : level.texts.join("").split(/[\r\n]+/))
            put(row.replace(/[\r\n]+/g, ""));
        if (level.title) put(`Title: ${level.title}`);
        for (const remark of level.remarks) put(`; ${remark}`);
        for (const letters of level.solutions) put("Solution"), put(letters);
        level = into = null;
    };
    const begin = (name, words) => {
        const values = [...words.matchAll(ATTRIBUTE)].map(([, key, one, other]) =>
            [key.replace(/^.*:/, "").toLowerCase(), unescaped(one ?? other)]);
        if (name === "level") {
            end();
            level = { number, rows: [], texts: [], remarks: [],
                title: values.find(([key]) => /^(?:id|title|name)$/.test(key))?.[1] };
            level.solutions = values.filter(([key]) => isSolution(key)).map(([, value]) => value);
        } else if (level && (isRow(name) || isSolution(name))) {
            into = isSolution(name) ? level.solutions : level.rows;
            into.push("");
        } else if (level) {
            for (const [key, value] of values) level.remarks.push(`${key}: ${value}`);
        }
    };
    for (const { name, isEnd, isEmpty, words, text: some, remark, begin: place,
        isStray } of xmlPieces(text)) {
        for (; at < place; at++) number += text[at] === "\n";
        if (isStray) isWhole = false;
        if (remark !== undefined) level?.remarks.push(remark);
        else if (some !== undefined && into) into[into.length - 1] += some;
        else if (some !== undefined) level?.texts.push(some);
        else if (!isEnd) {
            begin(name, words);
            if (isEmpty) into = null;
            if (!isEmpty) open.push(name);
            if (isEmpty && name === "level") end();
        } else {
            isWhole &&= open.pop() === name;
            if (isRow(name) || isSolution(name)) into = null;
            if (name === "level") end();
        }
    }
    end();
    if (!isWhole || open.length)
        faults.push({ number: 1, words: "is no whole XML: read as far as it goes" });
    return lines;
}

// ---- parts

// what all heads of the files of other games have
const GAMES = Object.entries({
    "Gnu Robbo": [/^\[last_level\][ \t]*\r?\n[ \t]*[0-9]/im,
        /^\[size\][ \t]*\r?\n[0-9]+\.[0-9]+/im], "Boulder Dash": [/^\s*\[BDCFF\]/i],
    XPM: [/^\/\* XPM \*\//i], PuzzleScript: [/^LEGEND[ \t]*\r?$/im, /^COLLISIONLAYERS[ \t]*\r?$/im],
});
// The game that a file is for, or "". A file of xsok is for Sokoban if no line of its sections
// begins with a character that is none of Sokoban.
function gameOf(text) {
    const kinds = [...text.matchAll(/^;(?:WALLS|OBJECTS)[^;\n]*\n((?:[^;\n].*\n)*)/gm)].flatMap(
        ([, lines]) => lines.split("\n").slice(0, -1));
    return GAMES.find(([, heads]) => heads.every(it => it.test(text)))?.[0]
        ?? (kinds.some(it => !/^[ #.@$]/.test(it)) ? "xsok" : "");
}

const FORMS = [["an archive that isn't read here: unpack it, and drop its files", /^(?:PK|7z|Rar)/],
    ["a picture", /^(?:\x89PNG|\xff\xd8\xff|GIF8)/], ["a document", /^(?:%PDF|\{\\rtf)/]];
const PAGE = /^<!DOCTYPE html>[^]*<title>sokoaudit report</, REPORT = /^(?:level 1|total \d+) /;
const TOTAL = /^total \d+ solved \d+ unsolvable \d+ refused \d+ missing \d+\r?\n$/m;
// Whether a file was made from levels: a page that shows them, or a report.
function isMade(bytes) {
    const head = textOf(bytes.subarray(0, 4000));
    return PAGE.test(head) || REPORT.test(head) && TOTAL.test(textOf(bytes.subarray(-200)));
}

const note = words => ({ number: 0, words, isNote: true });
// a file that isn't read, for a reason
const unread = (name, fault) =>
    ({ name, text: "", lines: [], faults: [fault], encoding: "", isAlone: false });

// The parts of a file, several if it is an archive: { name, text, lines, faults, encoding, isAlone
// }. The lines are there for SLC alone.
async function partsOf(name, bytes, depth = 0, room = { left: MOST_UNPACKED }) {
    const head = textOf(bytes.subarray(0, 8));
    try {
        if (/^PK\x03\x04/.test(head) && depth < MOST_NESTED) {
            const parts = [], files = await unzipped(bytes, room),
                made = files.filter(it => isMade(it.bytes));
            const copies = [...copiesIn(files.map(it => it.name)),
                ...made.length < files.length ? made.map(it => it.name) : []];
            for (const it of files) {
                parts.push(...copies.includes(it.name)
                    ? [unread(it.name, note("is left out, since it was made from the levels"))]
                    : await partsOf(it.name, it.bytes, depth + 1, room));
            }
            return parts;
        }
        if (/^\x1f\x8b/.test(head) && depth < MOST_NESTED) {
            const parts = await partsOf(name.replace(/\.gz$/, ""),
                await unpacked(bytes, "gzip", room), depth + 1, room);
            return parts.map(it => ({ ...it, faults: [note("was unpacked"), ...it.faults] }));
        }
    } catch (error) {
        return [unread(name, { number: 0, words: `can't be unpacked: ${error.message}` })];
    }
    return [partOf(name, bytes, head, !depth)];
}

// a text without the zero bytes and the old mark of an end that fill it up; a regular expression
// would take too long over many zeros
function unfilled(text) {
    let end = text.length;
    while (end && "\0\x1a".includes(text[end - 1])) end--;
    return text.slice(0, end);
}

// one text as a part; the head is its first bytes
function partOf(name, bytes, head, isAlone) {
    const isTar = textOf(bytes.subarray(257, 262)) === "ustar", faults = [];
    const form = isTar ? FORMS[0][0] : FORMS.find(([, begins]) => begins.test(head))?.[0];
    const { text, encoding } = readBytes(bytes), zero = form ? 0 : unfilled(text).indexOf("\0");
    if (form) faults.push({ number: 0,
        words: form.includes(":") ? `is ${form}` : `is ${form}, no text` });
    else if (zero >= 0) faults.push({ number: text.slice(0, zero).split("\n").length,
        words: "a zero byte: what comes from here on isn't read" });
    if (!form && encoding && !encoding.startsWith("utf-16"))
        faults.push(note(`isn't UTF-8: read as ${encoding}`));
    if (/^sokoban-answers/m.test(text) && /^unsolvable\r?$/m.test(text)) {
        faults.push({ number: 0,
            words: "its certificates aren't read from here: drop the answers beside the levels, as "
                + "a file of their own" });
    }
    const game = form ? "" : gameOf(text.slice(0, LONGEST_HEAD)),
        whole = game ? "" : zero < 0 ? unfilled(text) : text.slice(0, zero);
    if (game) faults.push({ number: 0, words: `is a file of ${game}, which is not read`,
        isNote: !isAlone });
    return { name, faults, encoding, text: whole, isAlone,
        lines: isXml(whole) ? slcLines(whole, faults) : null };
}
