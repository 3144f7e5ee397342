"""What the pages list, count and link to, beside the tree. check/words uses it."""
import os
import re

TOP = os.path.dirname(os.path.dirname(os.path.realpath(__file__)))


def read(path):
    with open(path, encoding="utf-8") as it:
        return it.read()


def crates_listed(block):
    """The crates that a picture or a table has. In a picture a word at the start of a line is a layer's name."""
    if block[0].startswith("|"):
        at = [cell.strip() for cell in block[0].strip("|\n").split("|")].index("Crate")
        return {name for line in block[2:] for name in re.findall(r"`(\w+)`", line.strip("|\n").split("|")[at])}
    return {word for line in block for word in line.split()[0 if line.startswith(" ") else 1:]}


def commands_listed(block):
    """The commands that a table has in its first column, or a man page in its synopsis."""
    if block[0].startswith("|"):
        return {span for line in block[2:] for span in re.findall(r"`([^`]+)`", line.strip("|").split("|")[0])}
    lines = (re.sub(r'^\.B[I]? |"|\\', "", line) for line in block if line.startswith(".B"))
    return {" ".join(line.replace("costore ", "", 1).split()) for line in lines}


def commands():
    """The commands that `--help` has, each with its words."""
    text = read(os.path.join(TOP, "crates/costore_top/src/help.rt"))
    return {" ".join(re.split("  +", line)[0].split()) for line in re.findall(r"(?m)^  costore (.*)", text)}


def blocks(text):
    """What follows each comment `check: ..`, with its line: the lines of the next table, picture or synopsis."""
    lines = text.split("\n")
    for number, line in enumerate(lines, 1):
        found = re.match(r"(?:<!-- |\.\\\" )check: ([\w ]+?)(?: -->)?$", line)
        if found:
            after = lines[number:]
            while after and not after[0].startswith(("|", "```", ".B")):
                after = after[1:]
            if after and after[0].startswith("```"):
                after = after[1:]
            ends = next((at for at, it in enumerate(after) if it in ("", "```", ".fi")), len(after))
            yield number, found.group(1), after[:ends]


def list_faults(page, text, repository):
    """Lists of a page that aren't those of the tree."""
    wanted = {"every crate": (crates_listed, set(repository.heights)), "every command": (commands_listed, commands())}
    for number, what, block in blocks(text):
        listed, there = wanted[what]
        has = listed(block) if block else set()
        for name in sorted(there - has):
            yield f"{page}:{number}: {what}: {name} is missing"
        for name in sorted(has - there):
            yield f"{page}:{number}: {what}: there is no {name}"


def count_faults(page, text, repository):
    """Counts of the definitions behind a word that aren't those of the tree."""
    for number, line in enumerate(text.split("\n"), 1):
        for word, count in re.findall(r"--behind (\w+)`[^|]*?(\d+ definitions, [\d,]+ lines, \d+ files, \d+ crates)", line):
            is_now = repository.count(*repository.behind(sorted(repository.words_named([word]))[0]))
            if count.replace(",", "") != is_now.replace(",", ""):
                yield f"{page}:{number}: {word}: there are {is_now}"


def slug(heading):
    """The name of a heading in a link."""
    return re.sub(r"[^\w -]", "", heading.replace("`", "").lower()).strip().replace(" ", "-")


def link_faults(page, text):
    """Links of a page that lead nowhere."""
    for number, line in enumerate(text.split("\n"), 1):
        for path, heading in re.findall(r"\]\(([^)#\s]*)(?:#([^)\s]*))?\)", line):
            if path.startswith(("http:", "https:")):
                continue
            file = os.path.normpath(os.path.join(os.path.dirname(page), path)) if path else page
            if not os.path.exists(file):
                yield f"{page}:{number}: {path}: no such file"
            elif heading and heading not in {slug(it) for it in re.findall(r"(?m)^#+ (.*)", read(file))}:
                yield f"{page}:{number}: {path}#{heading}: no such heading"


def page_faults(page, repository, known):
    """All that is wrong on a page."""
    text = read(page)
    yield from repository.check(page, known)
    yield from list_faults(page, text, repository)
    yield from count_faults(page, text, repository)
    yield from link_faults(page, text)
