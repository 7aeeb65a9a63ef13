"""Puts the page into one file: its style, its scripts, the modules and the examples."""
import base64
import gzip
import json
import os
import re

HERE = os.path.dirname(os.path.abspath(__file__))
TOP = os.path.dirname(os.path.dirname(HERE))
IMPORT = re.compile(r'^import .* from "\./(\w+)\.mjs";\n', re.M)
EXPORT = re.compile(r"^export ", re.M)


def text(path):
    with open(path, encoding="utf-8") as file:
        return file.read()


def scripts(name, done):
    """A module of the page after those that it imports, each once, as one script."""
    if name in done:
        return ""
    done.add(name)
    source = text(f"{HERE}/page/{name}.mjs")
    below = "".join(scripts(it, done) for it in IMPORT.findall(source))
    return below + EXPORT.sub("", IMPORT.sub("", source))


def script(name):
    """One script, without a text that would end its element."""
    whole = scripts(name, set())
    if re.search(r"</script|<!--", whole, re.I):
        raise ValueError(f"{name}.mjs has a text that ends its element")
    return whole


def examples():
    """The examples as JSON, in which no `<` stands."""
    found = []
    for line in text(f"{HERE}/examples/index").splitlines():
        name, path, title = line.split(maxsplit=2)
        found.append({"name": name, "title": title, "text": text(f"{TOP}/{path}")})
    return json.dumps(found).replace("<", "\\u003c")


def packed(path):
    """A module, compressed, as text."""
    with open(path, "rb") as file:
        return base64.b64encode(gzip.compress(file.read(), 9, mtime=0)).decode()


def page(mqlog, queues, logic, origin):
    """The page, of two modules, which were proved by this logic; None if that is not known."""
    proved = f"Rattle's prover checked both, by its logic {logic}; PROVED.md lists their contracts."
    parts = {
        "STYLE": text(f"{HERE}/page/style.css"), "ORIGIN": origin,
        "PROVED": proved if logic else "Whether these are proved is not known: this is a trial.",
        "NOTICE": "" if logic else "<strong>A trial, perhaps not proved</strong>",
        "EXAMPLES": examples(), "MQLOG": packed(mqlog), "QUEUES": packed(queues),
        "WORKER": script("worker"), "MAIN": script("main"),
    }
    return re.sub("@([A-Z]+)@", lambda it: parts[it[1]], text(f"{HERE}/page/page.html"))
