#!/usr/bin/env python3
"""Puts each wrong definition of tools/wrong_definitions.txt into crates/rule, lists or claims, in a copy, and tells what refuses it.

wrong_definitions.py [--examples] [--workers N] [NAME ..]

A line of the list is `name: file | old | new`, with more pairs of old and new where one does not do: the first place of `old` in
crates/rule/specs/<file>.antt (or crates/lists/specs, for `lists/<file>`, and so for claims) becomes `new`; ¶ stands for the end of a line, ǁ for ||. Where `new` says `same:` in front, the definition is no wrong one: it
gives the same answers on every day, and is there to say so. A name that `new` needs is added to the file's imports.

With --examples the laws and demands are left out of the copy, and so the worked days, which rest on laws: what remains to refuse a definition
is the examples, by computation. Without it all is proved. In the copy the claims stand in crates/rule, as one crate: so what is told has the
claims and theorems that refuse a definition beside the laws and examples of the rule that do.

Writes a line for each: its name, what came of it, the files in which something was not proved, the first error. Ends with 1 if one that is
not `same:` was admitted, or if one is no definition at all.
"""
import os, queue, re, shutil, subprocess, sys, tempfile, threading

ROOT = os.path.dirname(os.path.dirname(os.path.abspath(__file__)))
LIST = os.path.join(ROOT, "tools", "wrong_definitions.txt")
# the files of proofs/ that compute examples, and what they are computed with
EXAMPLES = {"NumberRule", "WholeRule", "DayCalls", "ExampleDays"}


def wrong_definitions():
    for line in open(LIST, encoding="utf-8"):
        line = line.rstrip("\n")
        if not line.strip() or line.startswith("#"):
            continue
        name, rest = line.split(": ", 1)
        parts = re.split(r" \|(?: |$)", rest)
        if len(parts) < 3 or len(parts) % 2 == 0:
            sys.exit(f"{LIST}: {name}: {len(parts)} parts")
        file, *texts = (part.replace(" ¶", "\n").replace("¶", "\n").replace("ǁ", "||") for part in parts)
        crate, file = file.split("/") if "/" in file else ("rule", file)
        same = texts[1].startswith("same: ")
        texts[1] = texts[1].removeprefix("same: ")
        yield name, f"crates/{crate.replace('claims', 'rule')}/specs/{file}.antt", list(zip(texts[::2], texts[1::2])), same


def copy(to, examples):
    os.makedirs(f"{to}/crates")
    for crate in ("lists", "rule"):
        shutil.copytree(f"{ROOT}/crates/{crate}", f"{to}/crates/{crate}", ignore=shutil.ignore_patterns("must-fail", "target", "out"))
    with open(f"{to}/crates.txt", "w") as file:
        file.write("lists:\nrule: lists\n")
    for part in ("specs", "proofs"):
        for f in os.listdir(f"{ROOT}/crates/claims/{part}"):
            with open(f"{ROOT}/crates/claims/{part}/{f}", encoding="utf-8") as file:
                text = file.read().replace("Rattle.claims.", "Rattle.rule.")
            with open(f"{to}/crates/rule/{part}/{f}", "a" if f == "Lib.antt" else "w", encoding="utf-8") as file:
                file.write(text)
    if examples:
        proofs = f"{to}/crates/rule/proofs"
        kept = {f[:-5] for f in os.listdir(proofs) if f.endswith("Examples.antt")} | EXAMPLES
        for f in os.listdir(proofs):
            if f.endswith(".antt") and f[:-5] not in kept | {"Lib"}:
                os.remove(f"{proofs}/{f}")
        with open(f"{proofs}/Lib.antt", "w") as file:
            file.writelines(f"pub mod {module}\n" for module in sorted(kept))


def check(at):
    run = subprocess.run(["rt", "check"], cwd=f"{at}/crates/rule", capture_output=True, text=True)
    return run.stdout + run.stderr


def imported(text, said):
    """The text with the names that an error message asks for in its imports, or None."""
    for module, name in re.findall(r"`use ([\w.]+)\.\{([^}`]+)\}`", said):
        start = f"use {module}.{{"
        if start in text:
            return text.replace(start, f"{start}{name}, ", 1)
        return text.replace("\nuse ", f"\n{start}{name}}}\nuse ", 1)
    operator = re.search(r"operator `(◌\S*◌)`, which module `([\w.]+)`", said)
    if operator:
        start = f"use {operator[2]}.{{"
        return text.replace(start, f"{start}{operator[1]}, ", 1) if start in text else None
    return None


def tried(at, path, text):
    """What comes of a text in place of a definition's file: the verdict, the files with errors, the first error."""
    for _ in range(4):
        with open(path, "w", encoding="utf-8") as file:
            file.write(text)
        said = check(at)
        errors = re.findall(r"^(?:\./|\.\./)?(\S+\.antt):(\d+):\d+: error: (.*)$", said, re.M)
        files = list(dict.fromkeys(file for file, _, _ in errors))
        if not any("specs/" in file for file in files):
            break
        text = imported(text, next(why for file, _, why in errors if "specs/" in file))
        if text is None:
            return "no definition", files, errors[0]
    if errors:
        return ("no definition" if any("specs/" in file for file in files) else "refused"), files, errors[0]
    return ("admitted" if "logic=proved" in said else "not checked"), files, ("", "", said[-200:])


def main(arguments):
    examples = "--examples" in arguments
    workers = int(arguments[arguments.index("--workers") + 1]) if "--workers" in arguments else 2
    names = {a for a in arguments if not a.startswith("--") and not a.isdigit()}
    waiting = queue.Queue()
    for definition in wrong_definitions():
        if not names or definition[0] in names:
            waiting.put(definition)
    lock, results = threading.Lock(), []

    def work(at):
        copy(at, examples)
        while True:
            try:
                name, file, changes, same = waiting.get_nowait()
            except queue.Empty:
                return
            path = f"{at}/{file}"
            with open(path, encoding="utf-8") as file:
                right = file.read()
            wrong = right
            for old, new in changes:
                wrong = wrong.replace(old, new, 1) if old in wrong else ""
            if wrong:
                verdict, files, error = tried(at, path, wrong)
                with open(path, "w", encoding="utf-8") as file:
                    file.write(right)
            else:
                verdict, files, error = "no such text", [], ("", "", path)
            with lock:
                results.append((verdict, same))
                short = " ".join(sorted(os.path.basename(f)[:-5] for f in files))
                why = "" if verdict == "admitted" else f"{os.path.basename(error[0])}:{error[1]} {error[2][:150]}"
                print("\t".join([name, verdict + (", and gives the same answers" if same else ""), short, why]), flush=True)

    with tempfile.TemporaryDirectory(dir="/dev/shm" if os.path.isdir("/dev/shm") else None) as top:
        threads = [threading.Thread(target=work, args=(f"{top}/{k}",)) for k in range(workers)]
        for thread in threads:
            thread.start()
        for thread in threads:
            thread.join()
    wrong = [(verdict, same) for verdict, same in results if not same]
    print(f"{len(wrong)} wrong definitions: {sum(verdict == 'refused' for verdict, _ in wrong)} refused; {len(results) - len(wrong)} others give the same answers")
    sys.exit(any(verdict != "refused" for verdict, _ in wrong))


if __name__ == "__main__":
    main(sys.argv[1:])
