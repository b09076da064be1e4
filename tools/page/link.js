// Links that open levels as they are shown: both texts are packed into the part after '#', which a
// browser sends to nobody. '#N:K=TEXTS' opens state K of level N, and '#=TEXTS' the overview.

const LINK = /^#(\d*)(?::([\w-]+))?=([\w-]+)$/, LONGEST_LINK = 100000;

async function piped(bytes, stream) {
    return new Uint8Array(await new Response(
        new Blob([bytes]).stream().pipeThrough(stream)).arrayBuffer());
}

async function packed(text) {
    const bytes = await piped(text, new CompressionStream("deflate-raw"));
    return btoa(textOf(bytes)).replace(/\+/g, "-").replace(/\//g, "_").replace(/=/g, "");
}

async function unpacked(words) {
    const bytes = bytesOf(atob(words.replace(/-/g, "+").replace(/_/g, "/")));
    return new TextDecoder().decode(await piped(bytes, new DecompressionStream("deflate-raw")));
}

// a link that opens two texts; "" if it would be too long for a browser
async function linkOf(levels, answers, address = "#") {
    const page = location.href.replace(/#.*/s, ""), words = await packed(`${levels}\n${answers}`);
    const link = `${page}${address}=${words}`;
    return link.length > LONGEST_LINK ? "" : link;
}

// the answers of a record, in the version of the text that it is from
function answersOf(record, head) {
    if (!record) return `${head}\n`;
    const lines = [];
    // a long line is cut into several with the same number
    for (const [i, [number, line]] of record.body.entries()) {
        if (i && record.body[i - 1][0] === number) lines[lines.length - 1] += line;
        else lines.push(line);
    }
    return [head, "level 1", record.kind, ...lines, "end", ""].join("\n");
}
