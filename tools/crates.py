#!/usr/bin/env python3
"""Looks over all crates.

    crates.py cited [--fix]   for each crate, the crates that its line of crates.txt names and its files cite nowhere, and those that its
                              files cite and the line lacks; with --fix the lines are mended
    crates.py twice [LEAST]   definitions and lemmas that stand twice, alike but for their names, of LEAST characters (120) and more: the
                              lower crate first, and whether the other one can cite it
    crates.py modules [--fix] which lines of docs/ARCHITECTURE.md on crates and modules aren't the first paragraph of their sources, which
                              of these modules are gone, and the crates that have no line; with --fix the lines are written anew
    crates.py preludes NAME.. has the files of these crates name what they cite of other crates through their own specs/Prelude and
                              proofs/Prelude, as far as that makes them shorter, but for operators, and drops what no file names any more
    crates.py programs        what a program of the list tools/programs lacks: its crates, its script, its stored run, its place in the
                              documents, or one of its commands in completions and manual; and scripts that the list lacks
"""
import collections
import os
import re
import sys
import textwrap

TOP = os.path.dirname(os.path.dirname(os.path.abspath(__file__)))
KIT = {"byteorder", "clap", "indexmap", "thiserror", "toml"}
HEAD = r"(?:abbrev |unfoldable )?(?:pub )?([^\s:]+) :"


def lines_of_crates():
    with open(f"{TOP}/crates.txt", encoding="utf-8") as it:
        lines = it.read().split("\n")
    return lines, {it.split(":")[0]: it.split(":")[1].split() for it in lines if re.match(r"\w+:", it)}


def texts(crate, endings):
    for folder, _, names in os.walk(f"{TOP}/crates/{crate}"):
        if "/out" not in folder:
            for name in sorted(names):
                if name.endswith(endings):
                    with open(f"{folder}/{name}", encoding="utf-8") as it:
                        yield f"{folder}/{name}", it.read()


def cited(is_fixed):
    lines, named = lines_of_crates()
    order = {it: at for at, it in enumerate(named)}
    for at, line in enumerate(lines):
        crate = line.split(":")[0]
        if crate not in named:
            continue
        found = set()
        for _, text in texts(crate, (".antt", ".rt")):
            found |= {*re.findall(r"Rattle\.(\w+)\.", text), *re.findall(r"\b(\w+)::", text)}
        found = {it for it in found if it != crate and (it in named or it in KIT)}
        extra = [it for it in named[crate] if it not in found]
        lacking = sorted((it for it in found if it not in named[crate]), key=lambda it: order.get(it, len(order)))
        if extra or lacking:
            print(f"{crate}: cites nothing of {extra}, lacks {lacking}")
            kept = [it for it in named[crate] if it not in extra]
            for it in lacking:
                behind = [n for n, other in enumerate(kept) if order.get(other, len(order)) > order.get(it, len(order))]
                kept.insert(behind[0] if behind else len(kept), it)
            lines[at] = " ".join([f"{crate}:", *kept])
    if is_fixed:
        with open(f"{TOP}/crates.txt", "w", encoding="utf-8") as it:
            it.write("\n".join(lines))


def twice(least):
    _, named = lines_of_crates()
    order = {it: at for at, it in enumerate(named)}
    found = collections.defaultdict(list)
    for crate in named:
        for path, text in texts(crate, ".antt"):
            if path.endswith(("/Answers.antt", "/Invariants.antt")):
                continue
            for part in re.split(r"\n\s*\n", text):
                part = "\n".join(it for it in part.split("\n") if not it.startswith(("--", "use ", "pub use")))
                head = re.match(HEAD, part)
                if head and len(part) >= least:
                    name = head.group(1)
                    alike = re.sub(rf"(?<![\w.'-]){re.escape(name)}(?![\w'-])", "_", re.sub(r"\bpub |abbrev |unfoldable ", "", part))
                    found[re.sub(r"\s+", " ", alike)].append((order[crate], crate, os.path.relpath(path, f"{TOP}/crates"), name))
    for text, places in sorted(found.items(), key=lambda it: -len(it[0])):
        first, *others = sorted(places)
        for other in others:
            how = "cites it" if first[1] in [other[1], *named[other[1]]] else "doesn't cite that crate"
            print(f"{len(text)} {first[2]}: {first[3]}, also {other[2]}: {other[3]} ({how})")


def read(path):
    """The text of a file, or none where there is no such file."""
    try:
        with open(f"{TOP}/{path}", encoding="utf-8") as it:
            return it.read()
    except FileNotFoundError:
        return None


def lacks_of_page(word, has_commands):
    """The parts that a program's page lacks; where it has commands, each of them has its own example and texts."""
    page = re.search(rf"^\| `\./{word}` \|.*\| `(\S+)` \|$", read("README.md") or "", re.M)
    text = read(page.group(1)) if page else None
    if text is None:
        yield "a page in README.md's list of programs"
    else:
        parts = ["Usage", "Statuses", "What is proved"] + ["Example", "Texts"] * (not has_commands)
        for it in parts:
            if not re.search(rf"^#+ {it}$", text, re.M):
                yield f"the part \"{it}\" in {page.group(1)}"
        if f"usage: {word} " not in text:
            yield f"its usage line in {page.group(1)}"


def lacks(word, crate, answers, named):
    """What a program lacks, line by line."""
    for it in (crate, answers):
        if it not in named:
            yield f"{it} in crates.txt"
        if f"- `{it}`: " not in (read("docs/ARCHITECTURE.md") or ""):
            yield f"{it} in docs/ARCHITECTURE.md"
    if f"tools/start\" {crate} " not in (read(word) or ""):
        yield f"a script ./{word} that starts {crate}"
    for it in ("args", "stdout", "src/main.rt"):
        if read(f"crates/{crate}/{it}") is None:
            yield f"crates/{crate}/{it}"
    if f"`./{word}`" not in (read("README.md") or "") and f"./{word} " not in (read("README.md") or ""):
        yield f"./{word} in README.md"
    usage = re.search(rf'"usage: {word} (.*)\\n"', read(f"crates/{answers}/src/top.rt") or "")
    commands = commands_of(usage.group(1)) if usage else []
    yield from lacks_of_page(word, bool(commands))
    if not usage:
        yield f"a usage line in crates/{answers}/src/top.rt"
    else:
        yield from lacks_of_help(word, commands + re.findall(r"--([a-z]+)", usage.group(1)))


def commands_of(usage):
    """The commands of a usage line: other words than names of files and options begin its parts."""
    return [it.split()[0] for it in usage.split(" | ") if re.match(r"[a-z]+ ", it)]


def lacks_of_help(word, names):
    """The completions and the manual that a program has to have, and the commands and options that one of them lacks."""
    for path in (f"completions/{word}.bash", f"completions/_{word}", f"completions/{word}.fish", f"docs/{word}.1"):
        text = read(path)
        if text is not None:
            yield from (f"{it} in {path}" for it in names if not re.search(rf"\b{it}\b", text))
        else:
            yield path


def programs():
    _, named = lines_of_crates()
    rows = [it.split() for it in read("tools/programs").split("\n") if it and not it.startswith("#")]
    for word, crate, answers in rows:
        for what in lacks(word, crate, answers, named):
            print(f"{word}: lacks {what}")
    for name in sorted(os.listdir(TOP)):
        if os.path.isfile(f"{TOP}/{name}") and "tools/start\"" in read(name) and name not in [it[0] for it in rows]:
            print(f"{name}: isn't in tools/programs")


ITEM = re.compile(r"^( *)- `(\w+)`: ")


def first_paragraph(path):
    """The first paragraph of a source's doc comment as the words behind a name, or none where it has no such comment."""
    told = re.match(r"//! ([^\n]*(?:\n//! [^\n]*)*)", read(path) or "")
    if told:
        text = " ".join(told.group(1).replace("\n//! ", " ").split())
        is_name = re.match(r"[A-Z]\w*[A-Z0-9]", text)
        return text if is_name else text[:1].lower() + text[1:]
    return None


def source_of(names):
    """The first source of a crate, or of a module inside it."""
    crate, *modules = names
    if modules:
        return f"crates/{crate}/src/{'/'.join(modules)}.rt"
    return next((it for it in (f"crates/{crate}/src/lib.rt", f"crates/{crate}/src/main.rt") if read(it)), "")


def wrapped(head, text, most=120):
    """A line of a list, broken at blanks, as it stands in documents."""
    lines = textwrap.wrap(head + text, most, subsequent_indent=" " * (len(head) - len(head.lstrip()) + 2), break_on_hyphens=False)
    return "\n".join(lines)


def modules(is_fixed):
    path = "docs/ARCHITECTURE.md"
    before, heading, rest = read(path).partition("## Crates and their modules\n")
    listed, bar, behind = rest.partition("\n## ")
    names, written = [], []
    for item in re.split(r"\n(?= *- `|\n|#)", listed):
        head = ITEM.match(item)
        if head:
            names = [*names[: len(head.group(1)) // 2], head.group(2)]
            if read(source_of(names)) is None:
                print(f"{'::'.join(names)}: is no module")
            told, stands = first_paragraph(source_of(names)), " ".join(item[head.end() :].split())
            told = told and told.removeprefix(f"{names[-1]}: ")
            if told and told != stands:
                print(f"{'::'.join(names)}: {told}")
                item = wrapped(head.group(0), told)
        written.append(item)
    for crate in lines_of_crates()[1]:
        if f"\n- `{crate}`: " not in listed:
            print(f"{crate}: has no line")
    if is_fixed:
        with open(f"{TOP}/{path}", "w", encoding="utf-8") as it:
            it.write(before + heading + "\n".join(written) + bar + behind)


IMPORT = re.compile(r"^use ([^{]+)\.\{(.*)\}\s*$")
EXPORT = re.compile(r"^(?:unfoldable )?pub use ([^{]+)\.\{(.*)\}\s*$", re.M)
WIDEST = 190


def imports(head, names):
    """The lines that import names of a module, none of them over the widest."""
    lines = []
    for it in names:
        if lines and len(lines[-1]) + len(it) + 3 <= WIDEST:
            lines[-1] += f", {it}"
        else:
            lines.append(head + ".{" + it)
    return [it + "}" for it in lines]


def names_in(text):
    return [it.strip() for it in text.split(",") if it.strip()]


def told_apart(path, prelude, known):
    """A file's lines without its imports, where the first of these stood, and what it imports, by module."""
    with open(path, encoding="utf-8") as it:
        lines = it.read().split("\n")
    found, kept, at = {}, [], None
    for line in lines:
        line_of = IMPORT.match(line)
        if not line_of:
            kept.append(line)
            continue
        at = len(kept) if at is None else at
        for name in names_in(line_of.group(2)):
            module = known[name.split(" as ")[0].strip()] if line_of.group(1) == prelude else line_of.group(1)
            if name not in found.setdefault(module, []):
                found[module].append(name)
    return kept, at, {it: found[it] for it in sorted(found)}


def unfoldable_in(module):
    """The names that a module of this repository lets others unfold: no more than these can be handed on so."""
    crate, _, path = module.removeprefix("Rattle.").partition(".")
    text = read(f"crates/{crate}/{path.replace('.', '/')}.antt")
    return None if text is None else set(re.findall(r"^ *unfoldable (?:pub )?(\S+) :", text, re.M))


def is_foreign(module, names, crate, folder):
    """Whether a file has these names of a module by the prelude. Operators come from the library itself, and what else the file names there."""
    if module.startswith("Rattle.std.") and any("◌" in it for it in names):
        return False
    own = f"Rattle.{crate}."
    if module.startswith(own):
        return folder == "proofs" and module.startswith(own + "specs.") and module != own + "specs.Prelude"
    return module.startswith(("Rattle.", "denote."))


def prelude_of(crate, folder):
    """Writes the prelude of a crate's definitions or proofs, and the imports of the files that name it."""
    base, prelude = f"{TOP}/crates/{crate}/{folder}", f"Rattle.{crate}.{folder}.Prelude"
    known, files, uses, modules, opened = {}, {}, collections.Counter(), collections.Counter(), set()
    for module, names in EXPORT.findall(read(f"crates/{crate}/{folder}/Prelude.antt") or ""):
        known |= {it: module for it in names_in(names)}
    for at, _, names in os.walk(base):
        for name in names:
            if name.endswith(".antt") and name not in ("Lib.antt", "Prelude.antt"):
                files[f"{at}/{name}"] = kept, _, found = told_apart(f"{at}/{name}", prelude, known)
                opened |= {word for it in kept if "unfolding" in it for word in re.findall(r"[^\s(),]+", it.split("unfolding")[1])}
                for module in found:
                    if is_foreign(module, found[module], crate, folder):
                        modules[module] += 1
                        uses.update((it.split(" as ")[0], module) for it in found[module])
    best, told, shorter = {}, collections.defaultdict(set), {}
    for (name, module), _ in sorted(uses.items(), key=lambda it: (-it[1], it[0])):
        if modules[module] > 1:
            best.setdefault(name, module)
    for path, (kept, at, found) in files.items():
        rest = {it: [name for name in found[it] if not is_foreign(it, found[it], crate, folder) or best.get(name.split(" as ")[0]) != it] for it in found}
        shared = [(it, name) for it in found for name in found[it] if name not in rest[it]]
        plain = [line for it in found for line in imports(f"use {it}", found[it])]
        joined = imports(f"use {prelude}", [name for _, name in shared]) + [line for it in rest for line in imports(f"use {it}", rest[it])]
        if len(joined) < len(plain):
            shorter[path] = joined
            for module, name in shared:
                told[module].add(name.split(" as ")[0])
        files[path] = kept, at, plain
    lines = [f"-- What the files of this crate's {folder} name of other modules, so that each imports it from one place."]
    for module in sorted(told):
        marked = unfoldable_in(module)
        unfolded = told[module] & opened if marked is None else told[module] & opened & marked
        lines += imports(f"pub use {module}", sorted(told[module] - unfolded)) + imports(f"unfoldable pub use {module}", sorted(unfolded))
    is_worth = len(lines) < sum(len(files[it][2]) - len(shorter[it]) for it in shorter)
    for path, (kept, at, plain) in files.items():
        if at is not None:
            with open(path, "w", encoding="utf-8") as it:
                it.write("\n".join([*kept[:at], *(shorter.get(path, plain) if is_worth else plain), *kept[at:]]))
    lib = (read(f"crates/{crate}/{folder}/Lib.antt") or "").replace("pub mod Prelude\n", "")
    if is_worth:
        with open(f"{base}/Prelude.antt", "w", encoding="utf-8") as it:
            it.write("\n".join(lines) + "\n")
        with open(f"{base}/Lib.antt", "w", encoding="utf-8") as it:
            it.write("pub mod Prelude\n" + lib)
    elif known:
        os.remove(f"{base}/Prelude.antt")
        with open(f"{base}/Lib.antt", "w", encoding="utf-8") as it:
            it.write(lib)


def preludes(names):
    for crate in names:
        prelude_of(crate, "specs")
        prelude_of(crate, "proofs")


if __name__ == "__main__":
    words = sys.argv[1:]
    if words[:1] == ["cited"]:
        cited("--fix" in words)
    elif words[:1] == ["twice"]:
        twice(int(words[1]) if len(words) > 1 else 120)
    elif words[:1] == ["modules"]:
        modules("--fix" in words)
    elif words[:1] == ["preludes"]:
        preludes(words[1:])
    elif words[:1] == ["programs"]:
        programs()
    else:
        sys.exit(__doc__)
