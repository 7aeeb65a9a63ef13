// What the page reads out of texts: what kind a text is, the report of a search, the line at fault,
// and the text that a link carries.

/** "script", "history" or "journal". */
export function kindOf(text) {
    const [first] = /^(?! *(?:#|$)).*$/m.exec(text) ?? [""];
    if (/^ *processes\b/.test(first)) return "script";
    if (/^\d+ \d+ (\d+|-) [a-z]/.test(first)) return "history";
    return /^\d+ \d+ [a-z]/.test(first) ? "journal" : "script";
}

/**
 * The parts of what `mqlog orders` writes: headings, and outcomes and deadlocks with their numbers,
 * their lines, and for a deadlock the lines of the script that wait.
 */
export function partsOf(report) {
    const parts = [];
    for (const line of report.split("\n")) {
        const numbered = /^(outcome|deadlock) (\d+)$/.exec(line);
        const found = parts.at(-1);
        if (numbered) parts.push({ kind: numbered[1], number: numbered[2], lines: [], waits: [] });
        else if (/^(phase \d+:|every order was tried|the budget of)/.test(line) || !found?.lines) {
            if (line) parts.push({ kind: "heading", text: line });
        } else if (line) {
            found.lines.push(line);
            const waits = found.kind === "deadlock" && /^line (\d+): /.exec(line);
            if (waits) found.waits.push(Number(waits[1]));
        }
    }
    return parts;
}

/** The line of a text, from 1, in which the entry with this number stands. */
function lineOfEntry(text, entry) {
    return text.split("\n").findIndex((line) => line.startsWith(`${entry} `)) + 1;
}

/** What mqlog says of a text, and the line of the text that it is about, or 0. */
export function faultOf(text, said) {
    const line = /\bline (\d+)\b/.exec(said), entry = /^entry (\d+)\b/m.exec(said);
    if (line) return { said, line: Number(line[1]) };
    return { said, line: entry ? lineOfEntry(text, entry[1]) : 0 };
}

/** The fragment of a link: to an example by its name, or with a text in it. */
export function fragmentOf({ example, text, panel }) {
    const words = new URLSearchParams(example ? { example } : { text });
    if (panel) words.set("panel", panel);
    return `#${words}`;
}

/** What a fragment asks for. */
export function askedBy(fragment) {
    const words = new URLSearchParams(fragment.replace(/^#/, ""));
    return { example: words.get("example"), text: words.get("text"), panel: words.get("panel") };
}
