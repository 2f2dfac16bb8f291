"""Wrong programs: how they are written down, what they touch, and where a log says that each was refused.

A file crates/CRATE/must-fail/LABEL.edit holds one wrong program or several, which are then tried in one check:

    # bit met twice
    want: next_bit
    file: src/lib.rt
    old:     let bits = w.bits & (w.bits - 1);
    new:     let bits = w.bits & (w.bits - 0);

A line that begins with # is a program's name, one that begins with -- says more of it. `want:` says where it has to be refused: at a function (`next_bit`, `Walk::next`), or at
a law of proofs/ or specs/ with its module (`law Best.best_step`). `file:` holds for the pairs of `old:` and `new:` after it, as `rt must-fail` reads them.

rt says of a file only that it was refused, and by what first. So each file is tried once more, by `rt check` on a copy, and what that said is
kept in target/must-fail/CRATE/LABEL.log, and in LABEL.N.log for its N-th program where that was tried alone.
"""
import os
import pathlib
import re
import shutil
import subprocess
import tempfile
from dataclasses import dataclass, field

ROOT = pathlib.Path(__file__).resolve().parent.parent


@dataclass
class Change:
    file: str
    old: str
    new: str


@dataclass
class Program:
    crate: str
    label: str
    name: str
    wants: list = field(default_factory=list)
    changes: list = field(default_factory=list)

    def __str__(self):
        return f"{self.crate}/{self.label}: {self.name}"

    @property
    def want(self):
        return self.wants[0] if self.wants else ""

    @property
    def law(self):
        """The law at which it has to be refused, where that is no function: the files that may hold it, and its name."""
        if not self.want.startswith("law "):
            return None
        module, _, name = self.want[4:].rpartition(".")
        return [f"{part}/{module.replace('.', '/')}.antt" for part in ("proofs", "specs")], name


@dataclass
class Function:
    name: str
    first: int  # its first line, that of its body and its last, counted from 1
    body: int
    last: int


# ---- what is written down


def programs_of(edit):
    """The wrong programs of one file, and what is wrong with the file itself."""
    crate, label = edit.parent.parent.name, edit.stem
    programs, faults, file, old = [], [], None, None
    for number, line in enumerate(edit.read_text(encoding="utf-8").splitlines(), 1):
        where = f"{crate}/{label}.edit:{number}"
        if line.startswith("# "):
            programs.append(Program(crate, label, line[2:].strip()))
        elif line.startswith("file: "):
            file = line[6:]
        elif line.startswith(("want:", "old: ", "new:")) and not programs:
            faults.append(f"{where}: no name above it")
        elif line.startswith("want:"):
            programs[-1].wants.append(line[5:].strip())
        elif line.startswith("old: "):
            old = line[5:]
        elif line.startswith("new:"):
            if file is None or old is None:
                faults.append(f"{where}: 'new:' without 'file:' and 'old:' before it")
                continue
            programs[-1].changes.append(Change(file, old, line[4:].removeprefix(" ")))
            old = None
        elif line.strip() and not line.startswith("-- "):
            faults.append(f"{where}: neither a name nor 'want:', 'file:', 'old:', 'new:', nor a line that begins with --")
    return programs, faults


def edits_of(root):
    return sorted(root.glob("crates/*/must-fail/*.edit"))


def owner_of(trait, type):
    """What the check calls an impl: by its type, and for a trait by type and trait, as ClockFromTime for `impl From<Time> for Clock`; of a path to
    a type it takes all words, of one to a trait the last."""
    words = [re.match(r"[\w:]+", type)[0]] + re.findall(r"[\w:]+", re.sub(r"^(\w+::)+", "", trait or ""))
    return "".join(part[0].upper() + part[1:] for word in words for part in word.split("::"))


def functions_of(text):
    """The functions of a source file that is laid out as `rt fmt` lays it out."""
    lines, found, owner, at = text.split("\n"), [], None, 0
    while at < len(lines):
        if impl := re.match(r"impl(?:<[^>]*>)? (?:(.+) for )?(.+) \{", lines[at]):
            owner = owner_of(*impl.groups())
        elif lines[at] == "}":
            owner = None
        if head := re.match(r'( *)(?:pub )?(?:extern "C" )?fn (\w+)', lines[at]):
            indent, first, body = head[1], at, None
            while True:
                line = lines[at]
                opens = line == indent + "{" or (line.endswith(" {") and (at == first or line.startswith(indent + ")")))
                if body is None and opens:
                    body = at + 1
                if line == indent + "}" or (at == first and line.endswith("}")):
                    break
                at += 1
            name = f"{owner}::{head[2]}" if owner and indent else head[2]
            found.append(Function(name, first + 1, (body or at) + 1, at + 1))
        at += 1
    return found


def function_at(text, line):
    return next((f for f in functions_of(text) if f.first <= line <= f.last), None)


def touched_by(program, root=ROOT):
    """The functions whose bodies a program changes, and whether it changes anything else: a contract, a constant, a definition."""
    bodies, others = set(), False
    for change in program.changes:
        path = root / "crates" / program.crate / change.file
        text = path.read_text(encoding="utf-8") if path.exists() else ""
        at = text.find(change.old)
        line = text.count("\n", 0, at) + 1 if at >= 0 else 0
        function = function_at(text, line) if change.file.startswith("src/") and at >= 0 else None
        if function and function.body <= line:
            bodies.add(function.name)
        else:
            others = True
    return bodies, others


# ---- trying them


def edited(programs, root=ROOT):
    """The texts of the files that some programs of one crate change, by their paths in the crate, the changes being made one after the other."""
    texts = {}
    for program in programs:
        for change in program.changes:
            path = root / "crates" / program.crate / change.file
            text = texts.get(change.file, path.read_text(encoding="utf-8") if path.exists() else "")
            if text.count(change.old) != 1:
                raise ValueError(f"its line is in {change.file} {text.count(change.old)} times: {change.old.strip()}")
            texts[change.file] = text.replace(change.old, change.new)
    return texts


def listed(root=ROOT):
    """The lines of crates.txt that name a crate, each with the crates that it uses."""
    lines = re.findall(r"^((\w+)[^:#\n]*:(.*))$", (root / "crates.txt").read_text(encoding="utf-8"), re.M)
    return {name: (line, uses.split()) for line, name, uses in lines}


def with_those_below(crate, crates):
    found = [crate]
    for name in found:
        found += [it for it in crates[name][1] if it in crates and it not in found]
    return found


def link(source, to):
    try:
        os.link(source, to)
    except OSError:
        shutil.copy2(source, to)


def link_proved(source, to):
    # A check replaces a file of this kind and changes none.
    (link if source.endswith(".oantt") else shutil.copy2)(source, to)


def lay_out(room, crate, texts, root):
    """A repository of the crate with these texts, over what its check kept, and of the libraries below it as they are built."""
    crates = listed(root)
    names = with_those_below(crate, crates)
    (room / "crates.txt").write_text("".join(crates[name][0] + "\n" for name in names), encoding="utf-8")
    for name in names:
        parts = {part: shutil.copy2 if name == crate else link for part in ("src", "specs", "proofs")}
        parts |= {"out/incremental": link_proved} if name == crate else {"out/rlib": link}
        for part, copy in parts.items():
            source = root / "crates" / name / part
            if source.is_dir():
                shutil.copytree(source, room / "crates" / name / part, copy_function=copy)
    for file, text in texts.items():
        path = room / "crates" / crate / file
        path.parent.mkdir(parents=True, exist_ok=True)
        path.write_text(text, encoding="utf-8")


def tried(programs, root=ROOT):
    """What the check of a crate with these programs says."""
    crate = programs[0].crate
    try:
        texts = edited(programs, root)
    except ValueError as error:
        return f"not tried: {error}\n"
    with tempfile.TemporaryDirectory(prefix="wrong-program-") as room:
        lay_out(pathlib.Path(room), crate, texts, root)
        how = {"stdin": subprocess.DEVNULL, "stdout": subprocess.PIPE, "stderr": subprocess.STDOUT, "text": True, "errors": "replace"}
        for _ in range(2):
            run = subprocess.run(["rt", "check", "--jobs", "1"], cwd=f"{room}/crates/{crate}", **how)
            # With any other status the check judged nothing: it was killed for memory, say.
            if run.returncode in (0, 1):
                break
            run.stdout += f"not tried: the check ended with status {run.returncode}\n"
        return run.stdout.replace(room, "..")


def logs_of(edit, root=ROOT):
    """Where it is kept what the checks of a file of wrong programs said: of all together, and then of each alone."""
    folder = root / "target" / "must-fail" / edit.parent.parent.name
    return [folder / f"{edit.stem}.log", *(folder / f"{edit.stem}.{number}.log" for number, _ in enumerate(programs_of(edit)[0], 1))]


def keep_tried(edit, root=ROOT):
    """Tries the programs of a file, all together and then each alone that may be hidden there by the others, and keeps what was said."""
    programs, logs = programs_of(edit)[0], logs_of(edit, root)
    for log in logs:
        log.parent.mkdir(parents=True, exist_ok=True)
        log.unlink(missing_ok=True)
    logs[0].write_text(tried(programs, root), encoding="utf-8")
    together = Log(logs[0], programs, root)
    for program, log in zip(programs, logs[1:]):
        if len(programs) > 1 and together.may_hide(program):
            log.write_text(tried([program], root), encoding="utf-8")


def verdicts(edit, root=ROOT):
    """Each program of a file, with the fact by which it was refused at its own place, or why it shows nothing."""
    programs, logs = programs_of(edit)[0], logs_of(edit, root)
    for program, log in zip(programs, logs[1:]):
        if log.exists():
            yield program, *Log(log, [program], root).verdict(program)
        elif logs[0].exists():
            yield program, *Log(logs[0], programs, root).verdict(program)
        else:
            yield program, None, "it was not tried"


# ---- what a log says

ERROR = re.compile(r"^(?:\./)?(\S+?):(\d+):\d+: error: (?:`([^`]*)`: )?(.*)")
UNPROVED = re.compile(r"^note: (?:\./)?(\S+?):(\d+):\d+: (it is not proved that .*?) \(`([^`]*)`\)")
STATUS = re.compile(r"^fn (\w+)::([\w:]+): (.*)")
UNSEARCHED = re.compile(r"`search` did not prove `([^`]*)`")

# What a check says where something rests on what was refused. That shows nothing of the thing itself.
CONSEQUENCE = re.compile(r"which was (rejected|not admitted)|was not admitted")
# What it says where the edit made a file unfit for the code, so that it cannot be read: that a goal, a law or a place has another name now shows nothing.
NAME_ONLY = re.compile(r"that can be named from here|is not in scope|has no field|\(nearest: \.|is no name|is not a library that|operand is missing|expected the end|cannot continue")
# A limit of the checker, which then gives no verdict.
LIMIT = re.compile(r"ran out of (stack|the (steps|memory))|outgrew the memory limit|stopped at the step limit")


@dataclass
class Refusal:
    place: str  # a file of the crate, and the law or goal in it
    law: str
    says: str
    kind: str  # "fact", "name", "limit" or "consequence"
    function: str  # the function to whose proof it belongs, or ""


def kind_of(says):
    kinds = (("consequence", CONSEQUENCE), ("name", NAME_ONLY), ("limit", LIMIT))
    return next((kind for kind, words in kinds if words.search(says)), "fact")


class Log:
    """What a check of some wrong programs of one crate said."""

    def __init__(self, path, programs, root=ROOT):
        said = path.read_text(encoding="utf-8", errors="replace")
        self.status, self.refusals = {}, []
        self.stopped = None if re.search(r"^logic=", said, re.M) else self.why_stopped(said)
        crate, texts = root / "crates" / programs[0].crate, {} if self.stopped else edited(programs, root)
        owners, sources = {}, {}
        for file in sorted(crate.glob("src/*.rt")):
            name = f"src/{file.name}"
            sources[name] = texts.get(name) or file.read_text(encoding="utf-8")
            for function in functions_of(sources[name]):
                front, _, last = function.name.replace("::", "/").rpartition("/")
                owners |= {os.path.join("proofs", front, mark + last, ""): function.name for mark in ("", "+")}
        for line in said.splitlines():
            if found := STATUS.match(line):
                self.status[found[2]] = found[3]
                if goal := UNSEARCHED.search(found[3]):
                    self.refusals.append(Refusal("the code", goal[1], found[3], "fact", found[2]))
            elif found := ERROR.match(line) or UNPROVED.match(line):
                place, number, law, says = found.groups() if found.re is ERROR else (found[1], found[2], found[4], found[3])
                owner = next((name for front, name in owners.items() if place.startswith(front)), "")
                if place in sources:
                    function = function_at(sources[place], int(number))
                    owner = function.name if function else ""
                self.refusals.append(Refusal(place, law or "", says, kind_of(line), owner))

    def why_stopped(self, said):
        lines = [line for line in said.splitlines() if re.search(r"not tried: |error(\[|:)|^rattle: ", line)] or said.splitlines()[-1:]
        return f"the check came to no verdict: {lines[0] if lines else 'it said nothing'}"

    def own(self, program):
        """The refusals at the place that the program names."""
        if program.law is not None:
            files, name = program.law
            return [r for r in self.refusals if r.law == name and r.place in files]
        return [r for r in self.refusals if r.function == program.want]

    def may_hide(self, program):
        """Whether a program shows nothing for the sake of others beside it: where a callee is not proved, a caller's goals without an answer are not tried."""
        calls = "it calls" in self.status.get(program.want, "") and not any(r.kind in ("fact", "name") for r in self.own(program))
        return self.stopped is not None or calls

    def verdict(self, program):
        """The fact by which a program was refused at its own place, and None; or None, and why it shows nothing."""
        if self.stopped:
            return None, self.stopped
        own = self.own(program)
        fact = next((r for r in own if r.kind == "fact"), None)
        if program.law is None and self.status.get(program.want, "proved") == "proved":
            return None, f"`{program.want}` is proved"
        if named := next((r for r in own if r.kind == "name"), None):
            return None, f"at `{program.want}` it is refused for a name only: {named.says[:200]}"
        if fact is None:
            elsewhere = sorted({r.function or f"law {r.law}" for r in self.refusals if r.kind == "fact"})
            own_words = f" ({self.status[program.want]})" if program.law is None else "".join(f" ({r.says[:120]})" for r in own[:1])
            return None, f"at `{program.want}` no fact refuses it{own_words}; refused by a fact: {', '.join(elsewhere) or 'nothing'}"
        return fact, None
