// Elements of the page.

/** An element with properties and children, which are elements or texts. */
export function node(name, properties = {}, ...children) {
    const it = Object.assign(document.createElement(name), properties);
    it.append(...children);
    return it;
}

export function button(text, onclick, properties = {}) {
    return node("button", { onclick, ...properties }, text);
}

export function byId(id) {
    return document.getElementById(id);
}
