"""What can be counted of the style of CONTRIBUTING.md: the length of sentences, words that a plainer one could replace,
and vague words. Blocks of code and comments are not counted, and what stands between backquotes is one word."""
import re

from making.sources import read

LONG = 40
# how many words a page may have that is made of the sources: whoever believes the theorem has to read all of them
GENERATED = {"docs/BELIEVE.md": 16500}
# what a plainer word says; each row is a form, as a regular expression, and that word
LISTED = (
    (r"\bwant(?:s|ed|ing)? (?:of|for) memory\b|\bmemory (?:is|was|be) wanting\b", "out of memory"),
    (r"\bwant(?:s|ing)? memory\b", "may run out of memory"),
    (r"\bbefall(?:s|en)?\b|\bbefell\b", "happens to"),
    (r"\b(?:for|of|to|by|than) who (?!is\b)", "whoever"),
    (r"\b\w+(?: or \w+)? in a hundred\b", "percent"),
    (r"\bthousandths? of a second\b", "milliseconds"),
    (r"\b(?:thrice|lest|wherefore|thereof|therein|whereby)\b", "a word of today"),
    (r"\bas far as this tells\b|\bwhich is to say that\b|\bso to say\b", "nothing"),
    (r"\bthat which\b|\bthose of which\b|\bthat of which\b", "the thing's name"),
)
LISTED = tuple((re.compile(form, re.I), plain) for form, plain in LISTED)
# where a sentence ends and the next one begins; a crate's name may begin one
STOP = re.compile(r"(?<=[.?!])[)\"”]*\s+(?=[\"“(]?(?:[A-Z\d]|fr_|test_|example_|fdbrec|bench/))")
# what a reader has to look back for, as the first word of a sentence
LEADING = re.compile(r"(?:Else|So|Of|That)\b")


def blocks(text):
    """The paragraphs, items, headings and cells of a page, each with the number of its first line."""
    found, now, start, is_code, was_blank = [], [], 0, False, True
    for number, line in enumerate(text.split("\n") + [""], 1):
        is_code = line.startswith("    ") and (was_blank or is_code) or not line.strip() and is_code
        is_new = re.match(r" *(?:[-*]|\d+\.) |#| *\||<!--|>", line)
        if (is_code or not line.strip() or is_new) and now:
            found.append((start, " ".join(now)))
            now = []
        if line.strip().startswith("|") and not is_code:
            cells = re.split(r"(?<!\\)\|", line.strip().strip("|"))
            found += [(number, part) for cell in cells for part in re.split(r"; ", cell)]
        elif line.strip() and not is_code and not line.startswith("<!--"):
            start = start if now else number
            now.append(re.sub(r"^(?: *(?:[-*]|\d+\.) |#+ |> )", "", line).strip())
        was_blank = not line.strip()
    return [(number, it.strip()) for number, it in found if it.strip()]


def plain(block):
    """A block as it is read aloud: what is in code is one word, and of a link the text."""
    block = re.sub(r"`[^`]*`", "Code", re.sub(r"<!--.*?-->", "", block))
    return re.sub(r"!?\[([^\]]*)\]\([^)]*\)", r"\1", block).replace("**", "").replace("*", "")


def words(text):
    return [it for it in text.split() if re.search(r"[^\W\d_]", it)]


def sentences(text):
    """Each sentence of a page with the number of the line at which its block begins."""
    for number, block in blocks(text):
        for it in re.split(STOP, plain(block)):
            yield number, it


def prose_faults(pages):
    """Sentences that are too long and words that a plainer one could replace, each with its place."""
    faults = []
    for page in pages:
        for number, it in sentences(read(page)):
            count = len(words(it))
            if count > LONG:
                faults.append(f"{page}:{number}: {count} words: {' '.join(it.split()[:9])} ..")
            for form, instead in LISTED:
                faults += [f"{page}:{number}: {found[0]!r}: {instead}" for found in form.finditer(it)]
    return faults


def prose_counts(pages):
    """Of each page its words, how often it says *what* in 1,000 of them, and how many sentences begin with Else, So, Of
    or That: for information alone."""
    for page in pages:
        said = [it for _, it in sentences(read(page))]
        count = sum(len(words(it)) for it in said)
        what = sum(len(re.findall(r"\bwhat\b", it, re.I)) for it in said)
        leading = sum(bool(LEADING.match(it)) for it in said)
        rate = 1000 * what / max(count, 1)
        yield f"{page}: {count:,} words, {rate:.0f} 'what' in 1,000, {leading} begin with Else, So, Of or That"


def generated_faults(made):
    """The pages made of the sources that have more words than they may; MADE has the texts."""
    faults = []
    for page, most in GENERATED.items():
        count = sum(len(words(it)) for _, it in blocks(made[page]))
        if count > most:
            faults.append(f"{page}: {count:,} words, where docs/making/prose.py allows {most:,}")
    return faults
