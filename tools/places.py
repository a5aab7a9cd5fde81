#!/usr/bin/env python3
"""Counts the places of each point of docs/DESIGN-PASS.md in the crates' src/ (and, for point 8, in proofs/).

    tools/places.py [TREE]        # one line a count
    tools/places.py [TREE] -v     # and where they stand
"""
import collections
import difflib
import glob
import itertools
import os
import re
import sys

args = [a for a in sys.argv[1:] if a != "-v"]
os.chdir(args[0] if args else os.path.join(os.path.dirname(os.path.abspath(__file__)), ".."))
files = sorted(glob.glob("crates/*/src/**/*.rt", recursive=True))
code = {f: re.sub(r"//.*", "", open(f).read()) for f in files}
counts = []


def crate(f):
    return f.split("/")[1]


def find(pattern, flags=0):
    """The crate and the first group, if there is one, of each match."""
    found = []
    for f, t in code.items():
        for m in re.finditer(pattern, t, flags):
            found.append(crate(f) + (":" + m.group(1) if m.groups() and m.group(1) else ""))
    return found


# 1
ours = []
for f, t in code.items():
    for m in re.finditer(r"enum (\w+) \{(.*?)\n\}", t, re.S):
        variants = re.findall(r"^    (\w+)", m.group(2), re.M)
        shape = r"Refused\(Refusal\)|\bMalformed,|\bShort,|\bNone,|\bFill,"
        if len(variants) == 2 and re.search(shape, m.group(2)):
            ours.append(crate(f) + "::" + m.group(1))
counts.append(("1  enums of the shape of Option or Result", ours))
hands = find(r"(?:Refused|Err)\((?P<e>\w+)\) => (?:return )?(?:\{\s*return )?(?:\w+::)?(?:Refused|Err)\((?P=e)\)")
hands += find(r"else \{\s*return (?:\w+::)?(?:Refused|Malformed|Short|Err)\b")
counts.append(("1  arms that only hand a refusal on", [h.split(":")[0] for h in hands]))
kinds = r"^    (?:pub )?(number|sort|chroma|alpha|angle|axis|forth|back|half|kind): u(?:8|32|size)"
counts.append(("1  numbers for kinds in fields and parameters", find(kinds, re.M)))
counts.append(("1  a number that says that there is none", find(r"\.number == 0")))


# 2
def functions():
    for f, t in code.items():
        for m in re.finditer(r"^( *)(?:pub(?:\(crate\))? )?fn (\w+)(?:<[^>]*>)?\(", t, re.M):
            end = t.find("\n" + m.group(1) + "}", m.end())
            text = t[m.start() : end + 2]
            start = max(text.find("\n" + m.group(1) + "{"), 0)
            yield crate(f), m.group(2), re.findall(r"\w+|[^\w\s]", text[start:])


twins = []
for a, b in itertools.combinations(functions(), 2):
    if a[0] == b[0] and min(len(a[2]), len(b[2])) >= 24:
        s = difflib.SequenceMatcher(None, a[2], b[2], autojunk=False)
        if s.quick_ratio() >= 0.8 and s.ratio() >= 0.8:
            twins.append("%s:%s/%s" % (a[0], a[1], b[1]))
counts.append(("2  pairs of functions of a crate of which four fifths are alike", twins))

# 3
steps = r"while (\w+) (?:<|>|!=|<=|>=) [^{]*\{(?=(?:[^{}]|\{(?:[^{}]|\{[^{}]*\})*\})*?\b\1 (?:\+=|-=|= \1 [-+])\s*\w)"
counts.append(("3  loops that count an index by hand", find(steps)))
counts.append(("3  all `while` and `loop`", find(r"^\s*(?:'\w+: )?(?:while|loop)\b", re.M)))
counts.append(("3  `for` (not to go)", find(r"^\s*(?:'\w+: )?for\b.*\bin\b.*\{", re.M)))

# 4
counts.append(("4  own `both`, `either`", find(r"\b(both|either)\(")))
own = r"numbers::(?:min|max|saturating_sub)\(|\bleast\(|fn (?:min|max|saturating_sub)\("
counts.append(("4  own `min`, `max`, `least`, `saturating_sub`", find(own)))
counts.append(("4  tests that return `true` or `false`", find(r"return (true|false);")))

# 5
facts = collections.defaultdict(set)
parameters = {}
signature = r"fn (\w+)(?:<[^>]*>)?\(([^{}]*?)\)(?: -> [^\n{]*)?\n((?:\s*(?:requires|ensures|×|\().*\n)*)"
for f, t in code.items():
    for m in re.finditer(signature, t):
        here = crate(f) + "::" + m.group(1)
        for r in re.findall(r"requires(?: \w+)? \{(.*)\}", m.group(3)):
            for part in re.split(r" × ", r):
                part = part.strip(" ()")
                word = re.match(r"([A-Z]\w*[a-z]\w*)", part)
                if word:
                    facts[word.group(1)].add(here)
                elif re.search(r"1 ≤ (\w+\.)?bytes|bytes ≤ 2", part):
                    facts["1 ≤ bytes ≤ 2"].add(here)
        names = [x.split(":")[0].strip().replace("mut ", "") for x in m.group(2).split(",") if ":" in x]
        parameters[here] = set(names)
often = sorted(facts.items(), key=lambda x: -len(x[1]))
counts.append(("5  facts that three or more functions require", ["%s (%d)" % (k, len(v)) for k, v in often if len(v) >= 3]))
# Lists of parameters that are all of what six or more functions have in common, and no part of another such list.
lists = {}
for here, names in parameters.items():
    for other in parameters.values():
        both = frozenset(names & other)
        if len(both) >= 3 and both not in lists:
            lists[both] = sum(both <= v for v in parameters.values())
often = {k: n for k, n in lists.items() if n >= 6}
whole = [k for k in often if not any(k < o for o in often)]
counts.append(("5  lists of parameters that six or more functions take", ["%s (%d)" % (" ".join(sorted(k)), often[k]) for k in whole]))

# 6
arrays = r"let mut (\w+)(?:: \[[^\]]*\])? = \[[^\]]*\];"
counts.append(("6  arrays that are filled to a count", find(arrays)))

# 7
counts.append(("7  matches on which step to run", find(r"match (rule|row|sought|self\.rule)\b")))

# 8
answers = glob.glob("crates/*/proofs/**/Answers.antt", recursive=True)
texts = [open(a).read() for a in answers]
counts.append(("8  files of answers", answers))
counts.append(("8  answers", [0] * sum(len(re.findall(r"^pub \S+ : goal\.", t, re.M)) for t in texts)))
counts.append(("8  lines of answers", [0] * sum(t.count("\n") for t in texts)))

for name, places in counts:
    print("%6d  %s" % (len(places), name))
    if "-v" in sys.argv and not name.startswith("8"):
        for place, n in collections.Counter(places).most_common():
            print("            %s%s" % (place, " × %d" % n if n > 1 else ""))
