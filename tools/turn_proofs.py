#!/usr/bin/env python3
"""turn_proofs.py CRATE NAMES.json [FUNCTION..]: a function's proof of the older form, Proof.antt, to Invariants.antt and Answers.antt.

Run it at the top of the repository, after tools/port_names.py, in a crate whose lower crates prove:

    (cd crates/CRATE && rt check --generated /tmp/names --old-names)
    tools/turn_proofs.py CRATE /tmp/names/names.json

names.json says how each goal, place and step of a function was called and is called. A step is found by its old name among those above the goal,
so chains of `.before` vanish. An answer that only says `search rules` or `omega arith` is left to the check. What it can't turn is printed: joins
of branches (`⊎_elim`), lemmas over a place, names that a later step hides. Proof.antt goes: git has it.
"""
import json
import os
import re
import sys

WORD = r"[^\W\d][\w'₀-₉]*(?:[-·][\w'₀-₉]+)*"
NO_WORD_BEFORE, NO_WORD_AFTER = r"(?<![\w.'-])", r"(?![\w'-])"
OPERATORS = ["≡", "∙", "≤", "<", "++", "+", "-", "*", "/", "%", "∷", "≢", "&&", "||", "^", "⊎", "=="]
LEFT_TO_THE_CHECK = ("search rules", "search needs", "omega arith")
# of the whole function, and not of a step
OF_THE_START = {"args": "args", "requires": "requires", "pre": "requires", "ranges": "ranges", "lifetimes": "lifetimes", "utf8": "utf8"}
PLACE = r"tie\.((?:At|In|After|Then|Else|Joined|Start|Left)[\w-]*)(?: invariant-[\w-]+| decreases-[\w-]+)*"


def kit():
    folder = os.path.dirname(os.path.dirname(os.path.realpath(os.popen("command -v rt").read().strip() or ".")))
    for top in (folder, "/opt/rattle"):
        path = os.path.join(top, "rattle/std/proofs/Common.antt")
        if os.path.exists(path):
            with open(path, encoding="utf-8") as handle:
                return {name.strip() for group in re.findall(r"\{([^}]*)\}", handle.read()) for name in group.split(",")}
    sys.exit("turn_proofs: the kit's std/proofs/Common.antt is not found")


def plain(name):
    """One spelling for a name that has dashes, underscores or a capital."""
    return name.replace("_", "-").lower()


def whole(name):
    return NO_WORD_BEFORE + re.escape(name) + NO_WORD_AFTER


class Function:
    """What names.json says of one function."""

    def __init__(self, info):
        self.info = info
        self.above, self.step, self.arms, self.kept = {}, {}, {}, {}
        for (name, above, step, _, arms), kept in zip(info["places"], info["typed"]):
            self.above[name], self.step[name], self.arms[name], self.kept[name] = above, step, dict(map(tuple, arms or [])), kept
        self.goals = {plain(old): (new, at[0]) for (old, new), at in zip(info["needs"], info["asked_at"])}
        self.loops = {plain(names[0]): (names[1], live, changed) for (names, live), changed in zip(info["loops"], info["changed"])}
        self.place_names = {plain(place[0]): (place[0], new) for place, new in zip(info["places"], info["places_by_name"])}

    def goal(self, label):
        bare = re.sub(r"^overflow-", "", plain(label))
        for each in (bare, plain(label), bare.replace("slice-bounds", "part")):
            if each in self.goals:
                return self.goals[each]
        return None

    def find(self, place, field):
        """The place at or above another whose step has that old name."""
        while place:
            if self.step[place][0] and plain(self.step[place][0]) == plain(field):
                return place
            place = self.above.get(place)
        return None


class Declaration:
    def __init__(self, name, signature):
        self.name, self.signature, self.opened, self.clauses = name, signature, [], []

    def body(self):
        text = "\n".join(self.clauses)
        return text[len(self.name):text.index("=")].split(), text[text.index("=") + 1:]


def read(text):
    """The comment, the imports and the declarations of a proof file."""
    blocks = []
    for line in text.split("\n"):
        if line.strip() and not line[0].isspace() and line[0] not in "})]|":
            blocks.append(line)
        elif blocks and line.strip():
            blocks[-1] += "\n" + line
    comments, uses, declarations = [], [], []
    for block in blocks:
        head = re.match(rf"(?:(?:abbrev|unfoldable|pub) )*({WORD})(?:\s*\{{[^}}]*\}})? : ", block)
        if block.startswith("--"):
            comments.append(block)
        elif block.startswith("use "):
            uses.append(block)
        elif block.startswith("unfolding ") and declarations:
            declarations[-1].opened.append(block)
        elif declarations and re.match(whole(declarations[-1].name), block):
            declarations[-1].clauses.append(block)
        elif head:
            declarations.append(Declaration(head.group(1), block))
    return comments, uses, declarations


class Turn:
    def __init__(self, function, common):
        self.function, self.common, self.left = function, common, []

    def chain(self, at, match):
        var, path = match.group(1), match.group(2)[1:].split(".")
        if var not in at:
            return match.group(0)
        while path and path[0] == "before":
            path = path[1:]
        if not path:
            return match.group(0)
        field, rest = path[0], path[1:]
        if field in OF_THE_START:
            return ".".join(["c", OF_THE_START[field]] + rest)
        place = self.function.find(at[var], field)
        if not place:
            self.left.append(f"no step {field} above {at[var]}")
            return match.group(0)
        if re.match(r"(shared[-_])?slice[-_]known\d*$", field):
            kept = [name for name, step in self.function.kept[place] if plain(step) == plain(field)]
            return ".".join(["c.type_inv", kept[0] if kept else "?"] + rest[1:])
        new = self.function.step[place][1]
        if rest and re.search(r"^if\d*$|-test$", self.function.step[place][0]):
            rest = [{"taken": "true", "left": "false"}.get(rest[0], rest[0])] + rest[1:]
        if rest:
            rest = [self.function.arms[place].get(rest[0], rest[0])] + rest[1:]
        if new.startswith("wrapping_") and rest == ["ensures"]:
            rest.append("value")
        if rest and re.match(r"keys\d*$", rest[0]):
            rest = ["is"]
        return ".".join(["c", new] + rest) if rest[:1] != ["rest"] else "(search rules)"

    def text(self, place, text):
        """Chains from `c`, and from a name that is let stand for a place further up."""
        at, lets = {"c": place}, {}
        for name, var in re.findall(rf"let ({WORD})(?: : [^=\n]*)? = ({WORD})(?:\.before)+ in", text):
            if var in at:
                at[name] = place
        for name in list(at)[1:]:
            text = re.sub(rf"let {re.escape(name)}(?: : [^=\n]*)? = {WORD}(?:\.before)+ in\s*", "", text)
        text = re.sub(rf"{NO_WORD_BEFORE}({WORD})((?:\.[\w'₀-₉-]+)+)", lambda m: self.chain(at, m), text)
        for name in list(at)[1:]:
            text = re.sub(whole(name) + r"(?!\.)", "c", text)
        text = re.sub(r"(?<=[\w)])\.pre(?![\w'-])", ".requires", text)
        argument = r"(?:[^\s()]+|\((?:[^()]|\([^()]*\))*\))"
        # the fact of `if !test(..)` is one of the test today
        return re.sub(
            rf"{NO_WORD_BEFORE}flag-(yes|no)((?:\s+{argument}){{3}})\s+(c\.[\w'₀-₉.-]+?)\.(false|true)-raw", r"said-\1\2 \3.\4", text
        )

    def invariant(self, declaration, kind, loop):
        """An invariant or a measure: its arguments are fields of `l` today."""
        if plain(loop) not in self.function.loops:
            self.left.append(f"no loop {loop}")
            return None
        new, live, changed = self.function.loops[plain(loop)]
        fields = [("l.initial." if c else "l.") + v for v, c in zip(live, changed)] + ["l." + v for v, c in zip(live, changed) if c]
        parameters, body = declaration.body()
        if len(parameters) != len(fields):
            self.left.append(f"{declaration.name}: {parameters} for {fields}")
        for parameter, field in zip(parameters, fields):
            body = re.sub(whole(parameter).replace("(?![\\w'-])", "(?![\\w'₀-₉-])"), "\0" + field, body)
        opened = "".join("\n" + o for o in declaration.opened)
        return f"abbrev pub {kind}-{new} : goal.{kind}-{new}{opened}\n{kind}-{new} l =" + body.replace("\0", "")

    def imports(self, uses, text, own=()):
        words = set(re.findall(WORD, text)) - set(re.findall(rf"(?m)^(?:(?:abbrev|unfoldable|pub) )*({WORD})(?: \{{[^}}]*\}})? :", text))
        signs = {o for o in OPERATORS if re.search(rf"(?<=[\s(]){re.escape(o)}(?=[\s)])", text)} | ({"[]"} if "[]" in text else set())
        names = sorted({f"◌{o}◌" for o in signs if o != "[]"} & self.common) + (["[]"] if "[]" in signs else []) + sorted(words & self.common)
        lines = []
        for use in uses:
            module, items = re.match(r"use ([^{\n]*?)(?:\.\{(.*)\})?$", use, re.S).groups()
            if items is None or module.endswith((".Statement", ".Tie")):
                continue
            wanted = [i.strip() for i in items.split(",") if i.split(" as ")[-1].strip() in words]
            wanted = [i for i in wanted if module.startswith("Rattle.") or i not in names]
            names = [n for n in names if n not in wanted]
            if wanted:
                lines.append(f"use {module}.{{{', '.join(wanted)}}}")
        here = [n for n in ("said-yes", "said-no") if n in words and not any(re.search(rf"[{{ ]{n}[,}}]", l) for l in lines)]
        if here:
            lines.append(f"use Rattle.lists.proofs.TestLaws.{{{', '.join(here)}}}")
        return ([f"use Rattle.std.proofs.Common.{{{', '.join(names)}}}"] if names else []) + lines + list(own)

    def proof(self, module, text):
        """The two files' texts of a proof."""
        comments, uses, declarations = read(text)
        declarations = without_stations(declarations)
        new_names = {}
        for d in declarations:
            label = re.search(r": tie\.Need-([\w-]+)", d.signature)
            if label and self.function.goal(label.group(1)):
                new_names[d.name] = self.function.goal(label.group(1))[0]
        cited = "\n".join(c for d in declarations for c in d.clauses)
        invariants, answers, helpers, at_place = [], [], [], {}
        for d in declarations:
            loop = re.search(r": tie\.(invariant|decreases)-([\w-]+)", d.signature)
            label = re.search(r": tie\.Need-([\w-]+)", d.signature)
            if loop and not label:
                invariants.append(self.invariant(d, loop.group(1), loop.group(2)))
            elif label:
                goal = self.function.goal(label.group(1))
                if not goal:
                    self.left.append(f"no goal {label.group(1)}")
                    continue
                _, body = d.body()
                if body.strip() in LEFT_TO_THE_CHECK and not d.opened and len(re.findall(whole(d.name) + " c", cited)) < 2:
                    continue
                body = self.text(goal[1], body)
                for old, new in new_names.items():
                    body = re.sub(whole(old), "\0" + new, body) if old not in (d.name, new) else body
                for helper, place in at_place.items():
                    body = re.sub(whole(helper) + r" [a-z](?:\.before)*(?![\w.'-])", f"{helper} (goal.at.{goal[0]} c).{place}", body)
                opened = "".join("\n" + o for o in d.opened)
                answers.append(f"pub {goal[0]} : goal.{goal[0]}{opened}\n{goal[0]} c =" + body.replace("\0", ""))
            elif "statement M" not in d.signature:
                place = re.search(PLACE, d.signature)
                known = self.function.place_names.get(plain(place.group(1))) if place else None
                if known:
                    at_place[d.name] = known[1]
                    d.signature = self.text(known[0], re.sub(PLACE, known[1], d.signature))
                    d.clauses = [self.text(known[0], c) for c in d.clauses]
                helpers.append((d.name, "\n".join([d.signature] + d.opened + d.clauses)))
        invariants = [i for i in invariants if i]
        shared = [(n, t) for n, t in helpers if re.search(whole(n), "\n".join(invariants))]
        own = [t for n, t in helpers if (n, t) not in shared]
        files = {}
        if invariants:
            shown = [re.sub(r"^(abbrev |unfoldable )?(?:pub )?", r"\1pub ", t) for _, t in shared]
            body = "\n\n".join(shown + invariants)
            files["Invariants.antt"] = comments[:1] + self.imports(uses, body, [f"use {module}.Given as goal"]) + ["", body]
        if answers:
            body = "\n\n".join(own + answers)
            more = [n for n, _ in shared if re.search(whole(n), body)]
            last = [f"use {module}.Invariants.{{{', '.join(more)}}}"] if more else []
            last += [f"use {module}.Goals.{{{', '.join(sorted(set(at_place.values())))}}}"] if at_place else []
            head = [] if invariants else comments[:1]
            files["Answers.antt"] = head + self.imports(uses, body, last + [f"use {module}.Goals as goal"]) + ["", body]
        return files


def without_stations(declarations):
    """Names for places further up, as `start c = c.before.before`, are gone: each step is a field of `c` today."""
    for d in declarations:
        if len(d.clauses) == 1 and re.fullmatch(rf"{re.escape(d.name)} [a-z] =\s*[a-z](?:\.before)*\s*", d.clauses[0]):
            rest = [other for other in declarations if other is not d]
            for other in rest:
                for holder in ("signature", "clauses"):
                    value = getattr(other, holder)
                    turned = [
                        re.sub(r"(?<=[\s(])\(c\)", "c", re.sub(whole(d.name) + r" [a-z](?:\.before)*", "c", each))
                        for each in ([value] if holder == "signature" else value)
                    ]
                    setattr(other, holder, turned[0] if holder == "signature" else turned)
            return without_stations(rest)
    return declarations


def main():
    if len(sys.argv) < 3:
        sys.exit(__doc__)
    crate, only = sys.argv[1], sys.argv[3:]
    with open(sys.argv[2], encoding="utf-8") as handle:
        names = json.load(handle)
    common = kit()
    for base, _, found in sorted(os.walk(f"crates/{crate}/proofs")):
        function = os.path.relpath(base, f"crates/{crate}/proofs").replace("/", ".")
        if "Proof.antt" not in found or (only and function not in only):
            continue
        key = f"Rattle-{crate}-proofs.{function}.Lts"
        if key not in names:
            print(f"{function}: names.json has no such function")
            continue
        with open(f"{base}/Proof.antt", encoding="utf-8") as handle:
            turn = Turn(Function(names[key]), common)
            files = turn.proof(f"Rattle.{crate}.proofs.{function}", handle.read())
        for name, lines in files.items():
            with open(f"{base}/{name}", "w", encoding="utf-8") as handle:
                handle.write("\n".join(lines).rstrip() + "\n")
        os.remove(f"{base}/Proof.antt")
        for each in turn.left:
            print(f"{function}: {each}")


if __name__ == "__main__":
    main()
