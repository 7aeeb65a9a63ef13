// The worker as the page sees it: tasks, and an end of all of them.

export class Stopped extends Error {
    constructor() {
        super("stopped");
    }
}

export class Engine {
    /** `source` is the worker's script, `modules` are the compressed modules. */
    constructor(source, modules) {
        this.url = URL.createObjectURL(new Blob([source], { type: "text/javascript" }));
        this.modules = modules;
        this.begin();
    }

    begin() {
        this.count = 0;
        this.asked = new Map();
        this.worker = new Worker(this.url);
        this.worker.onmessage = ({ data: { id, result, fault } }) => {
            const { done, failed } = this.asked.get(id);
            this.asked.delete(id);
            if (fault === undefined) done(result);
            else failed(new Error(fault));
        };
        this.ready = this.ask("load", this.modules);
        this.ready.catch(() => {}); // who awaits it learns of it
    }

    ask(task, words) {
        return new Promise((done, failed) => {
            const id = ++this.count;
            this.asked.set(id, { done, failed });
            this.worker.postMessage({ id, task, ...words });
        });
    }

    mqlog(words, input) {
        return this.ask("mqlog", { words, input });
    }

    isBusy() {
        return this.asked.size > 0;
    }

    /** Ends what runs; each task that was asked for fails with Stopped. */
    stop() {
        this.worker.terminate();
        const asked = [...this.asked.values()];
        this.begin();
        for (const { failed } of asked) failed(new Stopped());
    }
}
