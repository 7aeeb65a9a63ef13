// The panels at the right that show a journal or a history. Each gives the elements of its panel.
import { node } from "./nodes.mjs";

const NO_JOURNAL = {
    script: "There is no journal yet: choose an outcome, or run the script.",
    history: "No journal explains this history.",
    journal: "The journal is empty.",
};

const pre = (text, className = "") => node("pre", { className }, text);

/** What mqlog writes to either output, as an element. */
const written = ({ out, err }) => pre(out + err);

/** A page in a frame. */
function framed({ out, err }) {
    return out ? node("iframe", { srcdoc: out, title: "Step through" }) : pre(err);
}

/** A picture. As an image, nothing in it is executed. */
function pictured({ out, err }) {
    if (!out) return pre(err);
    const url = URL.createObjectURL(new Blob([out], { type: "image/svg+xml" }));
    const image = node("img", { src: url, alt: "The journal as a picture: time goes downwards" });
    image.onload = () => URL.revokeObjectURL(url);
    return image;
}

export class Views {
    /** `session` has the journal and the history that are shown. */
    constructor(engine, session) {
        this.engine = engine;
        this.session = session;
    }

    /** A panel over the journal, by a task of mqlog. */
    async over(words, shown) {
        const { journal, kind } = this.session;
        if (journal === "") return [node("p", {}, NO_JOURNAL[kind])];
        return [shown(await this.engine.mqlog(words, journal))];
    }

    async step() {
        const { history } = this.session;
        if (history === "") return this.over(["view"], framed);
        return [framed(await this.engine.mqlog(["judge", "--page"], history))];
    }

    picture() {
        return this.over(["draw"], pictured);
    }

    async journal() {
        const checked = await this.over(["check"], ({ out, err }) => pre(out + err, "verdict"));
        return [...checked, pre(this.session.journal)];
    }

    state() {
        return this.over(["state"], written);
    }

    compacted() {
        return this.over(["compact"], written);
    }
}
