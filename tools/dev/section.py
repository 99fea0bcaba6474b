"""A section of a page that a script makes: the lines between `<!-- NAME -->` and `<!-- end of NAME -->`."""
import datetime
import functools
import hashlib
import json
import os
import re
import subprocess
import threading

DOCS = os.path.join(os.path.dirname(os.path.abspath(__file__)), "..", "..", "docs")
GALLERY, PIPELINES = os.path.join(DOCS, "GALLERY.md"), os.path.join(DOCS, "PIPELINES.md")


def today():
    """The date as the pages write it."""
    now = datetime.date.today()
    return f"{now.day} {now:%B %Y}"


@functools.lru_cache(maxsize=None)
def version(*words):
    """The name and the version of a tool, from the first line that it prints."""
    said = subprocess.run(words, stdout=subprocess.PIPE, stderr=subprocess.STDOUT, text=True).stdout
    found = re.search(r"(\d+\.\d+[\w.]*)", said)
    return found.group(1) if found else "of unknown version"


def write(page, name, lines):
    """Replaces the section by these lines."""
    begin, end = f"<!-- {name} -->", f"<!-- end of {name} -->"
    with open(page) as file:
        text = file.read()
    if text.count(begin) != 1 or text.count(end) != 1:
        raise SystemExit(f"section: {page} has no section '{name}'")
    before, rest = text.split(begin)
    after = rest.split(end)[1]
    with open(page, "w") as file:
        file.write("\n".join([before + begin, "", *lines, "", end + after]))


class Kept:
    """Results that were computed before, by their names, in a file; without a file only those of this run.
    A result's name has the texts that it depends on. So a changed text has no kept result, and a run that was ended can be continued."""

    def __init__(self, path):
        self.path, self.lock, self.results = path, threading.Lock(), {}
        if path and os.path.exists(path):
            with open(path) as file:
                self.results = json.load(file)

    def result(self, texts, compute, is_stale=lambda result: False):
        name = hashlib.sha256("\0".join(texts).encode()).hexdigest()
        if name not in self.results or is_stale(self.results[name]):
            computed = compute()
            with self.lock:
                self.results[name] = computed
                if self.path:
                    with open(self.path, "w") as file:
                        json.dump(self.results, file)
        return self.results[name]
