// What begins when the page is opened.
"use strict";

const parts = pageOf(document.querySelector("#journal").textContent);
window.page = parts.calls ? new HistoryPage(parts) : new Page(parts);
