#!/usr/bin/env python3
"""Lists the places of the design pass (docs/DESIGN-PASS.md), point by point: python3 tools/places.py [-v] [POINT..]

Each rule is a pattern over one line of a crate's src/, or over a few lines that follow one another. -v prints each place, as
crate/file:line and the line. Run it at the top of the repository, or in a checkout of an older commit."""
import collections
import pathlib
import re
import sys

RULES = {
    "1 enums, flags and number codes": [
        ("an enum whose cases are a success and its refusals", r"^\s*(pub )?enum Carried\b.*Full"),
        ("a number that stands for a kind", r"\b(tag|action|number|letter): u8\b(?!.*\bfn number)|\b(tag|action) [!=]= |^const TABLE|const TABLE: u8"),
        ("a match that turns a case to its number", r"\w+::\w+(\(_\))? => \d+,$"),
        ("a match that only passes a refusal on, in place of ?", r"Err\((\w+)\) => (return Err|\{\s*return Err|\{ let part = Part::from)"),
        ("a result that is thrown away, though it is none", r"let _ = [^;]*\("),
        ("a yes or no that tells whether there was one", r"Result<bool"),
        ("a 0 that stands for none", r"(return 0;|\{ 0 \}$|else \{ 0 \}|None => 0,)"),
    ],
    "2 twins": [
        ("the test for a line of a wire, written again", r"from < 8 && to < 8 && from != to"),
        ("a mask without one of its ports, written again", r"bits [-^] \(1u8 <<"),
        ("a number turned to an action, written again", r"1 => Some\(Action|number == 1 \{ Action"),
    ],
    "3 loops that count by hand": [
        ("a for whose number is an index in its body", r"\bfor (\w+) in [\w.()]+\.\.=?[\w.()]+ \{[^}]*\[[^\]]*\b\1\b"),
        ("a counter that is raised", r"^\s*\w+ \+= (1|\w+\(.*\)|1u8 << \w+);$"),
        ("a search, test or count written as a loop", r"for [^{]+ in [^{]+ \{ (if|n \+=|bits)"),
    ],
    "4 order, conversion and printing by hand": [
        ("an order by hand", r"fn is_before\b.*\{ (if|self\.\w+ <)"),
        ("a conversion by hand", r"fn (number|letter|action|action_of)\b"),
        ("a number printed piece by piece", r"self\.add_(item|number|pair|stamp)\("),
        ("parts of a value printed one by one", r"\{clock\}\.\{step\}|let \(clock, step, port\)|let \(home, berth, vessel\)"),
    ],
    "5 what travels together": [
        ("a function of five parameters or more", None),
    ],
    "6 buffers and parallel arrays": [
        ("a struct that holds an array and the length in use", r"\w+: \[[^\]]+; [^\]]+\],.* len: usize"),
        ("arrays side by side for the same four dispatchers", r"\w+: \[u(16|32); 4\],$"),
        ("a slice and a length as parameters", r"fn \w+[^{]*&(mut )?\[\w+\], len: usize"),
        ("a place in a flat array that is computed", r"\* (8|16|128) \+"),
    ],
    "7 which step to run": [
        ("a step or a function chosen by a switch", r"\bdyn |Box<|: fn\(|mode: "),
    ],
}


def sources():
    for path in sorted(pathlib.Path("crates").glob("*/src/**/*.rt")):
        yield path, path.read_text().splitlines()


def places(pattern):
    """A rule is matched on its line joined with the three behind it, so that a match begins on that line."""
    rule = re.compile(pattern)
    for path, lines in sources():
        for i, line in enumerate(lines):
            if line.lstrip().startswith("//") or "ghost" in line or "ensures" in line or "requires" in line:
                continue
            near = " ".join([line.strip()] + [x.strip() for x in lines[i + 1 : i + 8] if not x.strip().startswith("//")])
            found = rule.search(line) or rule.search(near)
            if found and (rule.search(line) or found.start() < max(len(line.strip()), 1)):
                yield path, i + 1, line.strip()


def wide_functions():
    for path, lines in sources():
        text = "\n".join(lines)
        for found in re.finditer(r"fn (\w+)[^(]*\(([^)]*)\)", text):
            params = [p for p in found.group(2).replace("\n", " ").split(",") if p.strip() and "self" not in p]
            if len(params) >= 5:
                yield path, text[: found.start()].count("\n") + 1, f"fn {found.group(1)}: {len(params)} parameters"


def twice_declared():
    """Point 2: a name that two crates' sources declare as a function or a type outside an impl."""
    seen = collections.defaultdict(list)
    for path, lines in sources():
        if "_tests" in path.parts[1]:
            continue
        for i, line in enumerate(lines):
            found = re.match(r"(pub |pub\(crate\) )?(fn|struct|enum|const) (\w+)", line)
            if found and found.group(3) != "main":
                seen[found.group(3)].append((path, i + 1, line.strip()))
    for name, where in sorted(seen.items()):
        if len(where) > 1:
            yield from where


def repeated_facts():
    """Point 5: an expression over the same named things in the contracts of three functions or more of a crate."""
    for crate in sorted(pathlib.Path("crates").iterdir()):
        uses = collections.Counter()
        for path in crate.glob("src/**/*.rt"):
            for clauses in re.findall(r"(?:\bfn [^{;]*?)((?:\n\s*(?:requires|ensures)[^\n]*)+)", path.read_text()):
                for fact in set(re.findall(r"\((\w+ (?:[\w.]+ )+[\w.]+)\)|\{ (\w+\.\w+\.\w+(?:\.now)? ≡ \w+\.\w+\.\w+(?:\.now)?) \}", clauses)):
                    uses[fact[0] or fact[1]] += 1
        for fact, n in sorted(uses.items()):
            if n >= 3 and fact.count(" ") >= 2:
                yield crate / "src", 0, f"{n} contracts say {fact}"


def main():
    verbose = "-v" in sys.argv
    wanted = [a for a in sys.argv[1:] if a != "-v"]
    groups = {point: [(what, list(places(p)) if p else list(wide_functions())) for what, p in rules] for point, rules in RULES.items()}
    groups["2 twins"].append(("declared twice under one name", list(twice_declared())))
    groups["5 what travels together"].append(("an expression in three contracts or more", list(repeated_facts())))
    for point in sorted(groups):
        if wanted and point[0] not in wanted:
            continue
        print(f"{point}: {sum(len(found) for _, found in groups[point])}")
        for what, found in groups[point]:
            print(f"    {what}: {len(found)}")
            if verbose:
                for path, line, text in found:
                    print(f"        {path.relative_to('crates')}:{line}: {text}")


main()
