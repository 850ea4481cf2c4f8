"""Which files of definitions a claim reaches, by their imports, for `tools/pages`."""
import glob
import os
import re

IMPORT = re.compile(r"(?m)^(?:pub )?use Rattle\.(\w+)\.specs\.([\w.]+?)(?:\.\{[^}]*\})?(?: as \w+)?\s*$")
HEAD = "## What the claim about theorems reaches"
# What the claim is said by, and the definition that it speaks of and that may be taken as it is.
CLAIM, OUTCOME = "mz_accepted_laws/specs/Alone.antt", "mz_article/specs/Outcome.antt"
RUN = "mz_run/specs/Run.antt"


def imports(path):
    """Returns the files of definitions, below crates/, that the file names."""
    found = []
    with open(f"crates/{path}") as it:
        text = it.read()
    for crate, module in IMPORT.findall(text):
        parts = module.split(".")
        for end in range(len(parts), 0, -1):
            named = f"{crate}/specs/{'/'.join(parts[:end])}.antt"
            if os.path.isfile(f"crates/{named}"):
                found.append(named)
                break
    return found


def reached(start, without=()):
    """Returns the file and those that it reaches, each behind those that it names."""
    found = {}

    def take(path):
        if path not in found and path not in without:
            found[path] = None
            for it in imports(path):
                take(it)
            del found[path]
            found[path] = None

    take(start)
    return list(found)


def lines_of(paths):
    count = 0
    for path in paths:
        with open(f"crates/{path}") as it:
            count += sum(1 for _ in it)
    return f"{count:,}"


def bullets(page):
    """Returns the numbered lists' files in their order, each with what the page says of it."""
    lists = page.split("\n## Further definitions")[0].split("\n## 1. ")[1]
    found = {}
    for names, said in re.findall(r"(?m)^- ((?:`[^`]+`(?:, | and )?)+)(?: of list \d+)?: (.*)$", lists):
        for it in re.findall(r"`([^`]+\.antt)`", names):
            found.setdefault(it, said)
    return found


def meaning(page, wrong):
    """Returns the page with the section of the claim made anew."""
    listed = bullets(page)
    place = {it: at for at, it in enumerate(listed)}
    whole = reached(CLAIM)
    for path in dict.fromkeys([*whole, *reached(RUN)]):
        if path not in place:
            wrong.append(f"docs/MEANING.md: {path} is reached, and stands in none of the lists 1 to 7")
    for path in place:
        if not os.path.isfile(f"crates/{path}"):
            wrong.append(f"docs/MEANING.md: {path} is no file")
            continue
        late = [it for it in imports(path) if place.get(it, -1) > place[path]]
        if late:
            wrong.append(f"docs/MEANING.md: {path} stands on {', '.join(late)}, which stand behind it")
    claim = sorted(reached(CLAIM, (OUTCOME,)), key=lambda it: place.get(it, len(place)))
    every = [it.removeprefix("crates/") for it in glob.glob("crates/*/specs/**/*.antt", recursive=True) if not it.endswith("/Lib.antt")]
    text = f"""{HEAD}

`TheoremsLaw` says: where an article is accepted by the built-in exports and grants nothing, as one of theorems alone does, each of its items derives from the seven axioms. `AxiomsLaw` says the same of any items, from the axioms and what the items before grant. Whoever takes the outcome of an article (`IsOutcome`, list 5) as it is has {len(claim)} files with {lines_of(claim)} lines to read, in this order:

""" + "\n".join(f"{at}. `{it}`: {listed.get(it, '')}" for at, it in enumerate(claim, 1)) + f"""

With the outcome the claim reaches {len(whole)} files with {lines_of(whole)} lines (lists 1 to 6), and what a run writes {len(reached(RUN))} with {lines_of(reached(RUN))}; all crates together have {len(every)} with {lines_of(every)}. `tools/pages` counts them by their imports, and says where a file that is reached stands in no list or in front of one that it names.

"""
    before, _, rest = page.partition(HEAD + "\n") if HEAD in page else page.partition("\n## 1. ")
    if HEAD in page:
        return before + text + "## 1. " + rest.split("\n## 1. ", 1)[1]
    return before + "\n" + text + "## 1. " + rest
