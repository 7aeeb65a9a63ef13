// A text area with line numbers. Lines can be marked; only the numbers in view exist.

const ROW = 20; // pixels, as in style.css

export class Editor {
    constructor(area, numbers) {
        this.area = area;
        this.numbers = numbers;
        this.marks = new Map();
        this.count = 1;
        area.addEventListener("scroll", () => this.draw());
        area.addEventListener("input", () => this.changed());
        new ResizeObserver(() => this.draw()).observe(area);
    }

    get text() {
        return this.area.value;
    }

    set text(text) {
        this.area.value = text;
        this.area.scrollTop = 0;
        this.changed();
    }

    changed() {
        this.count = 1;
        const { text } = this;
        for (let at = text.indexOf("\n"); at >= 0; at = text.indexOf("\n", at + 1)) this.count++;
        this.mark([]);
    }

    /** Marks lines, from 1, as "bad", "wait" or "next", in place of all marks. */
    mark(lines, kind) {
        this.marks = new Map(lines.map((line) => [line, kind]));
        this.draw();
    }

    draw() {
        const first = Math.floor(this.area.scrollTop / ROW);
        const last = Math.min(this.count, first + Math.ceil(this.area.clientHeight / ROW) + 1);
        const nodes = [];
        for (let line = first + 1; line <= last; line++) {
            const node = document.createElement("div");
            node.textContent = line;
            node.className = this.marks.get(line) ?? "";
            nodes.push(node);
        }
        if (nodes.length > 0) nodes[0].style.marginTop = `${first * ROW - this.area.scrollTop}px`;
        this.numbers.replaceChildren(...nodes);
    }

    /** Selects a line, and scrolls to it. */
    show(line) {
        const { text } = this;
        let from = 0;
        for (let i = 1; i < line; i++) from = text.indexOf("\n", from) + 1;
        const end = text.indexOf("\n", from);
        this.area.focus();
        this.area.setSelectionRange(from, end < 0 ? text.length : end);
        this.area.scrollTop = Math.max(0, (line - 4) * ROW);
    }
}
