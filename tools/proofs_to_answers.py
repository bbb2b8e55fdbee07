#!/usr/bin/env python3
"""Turns a function's walked proof of the older kit, Proof.antt, into Invariants.antt and Answers.antt.

usage: tools/proofs_to_answers.py NAMES CRATES CRATE [merged]

NAMES is the names.json that 'rt check --generated FOLDER --old-names' writes in the crate's folder: each goal's old and new name, and the places of the walk with
their labels. Since that needs the crates below it proved, the port made one crate of the sources of all libraries, each a module, and took the names of that one:
'merged' says so. CRATES is the folder crates/, CRATE a crate of it, after port.py. Each Proof.antt that is understood is removed; a line is printed for what is not.

A goal that was answered by 'search rules', 'omega arith', 'refl' or 'tt' is left to the check. Of the others the answer is kept, and a path into the walk, as
'c.before.before.f.ensures', becomes the label's own, as 'c.f-x.ensures'.
"""
import json, os, re, sys

names = json.load(open(sys.argv[1]))
crates, crate = sys.argv[2], sys.argv[3]
merged = len(sys.argv) > 4
root = os.path.join(crates, crate, "proofs")
TRIVIAL = {"search rules", "omega arith", "refl", "tt"}
said = []


def norm(s):
    return s.replace("_", "-").lower()


def flat(s):
    s = re.sub(r"_lem$", "", s)
    return re.sub(r"[-_]", "", s).lower()


PATH = re.compile(r"(?<![\w'.\-₀₁₂≡])[A-Za-z_][^\s(){}\[\];,@\"«»]*")


class Unresolved(Exception):
    pass


class Fn:
    def __init__(self, key, e):
        self.e = e
        self.places = {p[0]: i for i, p in enumerate(e["places"])}
        self.labels = {}

    def parent(self, p):
        q = self.e["places"][p][1]
        return self.places[q] if q is not None else None

    def chain(self, p):
        while p is not None:
            yield p
            p = self.parent(p)


def label_forms(old):
    return {norm(old)}


def resolve(fn, goal_place, state, segs, head):
    """state: ('place', i) | ('label', i) | ('ens', text, fields) | ('path', text)"""
    segs = list(segs)
    while segs:
        kind = state[0]
        if kind == "place":
            i = state[1]
            seg = segs.pop(0)
            name, parent, lab, callee, more = fn.e["places"][i][:5]
            found = None
            if seg != "before" and not (lab[0] and flat(seg) == flat(lab[0])):
                for q in fn.chain(goal_place):
                    l0 = fn.e["places"][q][2][0]
                    if l0 and flat(l0) == flat(seg):
                        found = q
                        break
                if found is None:
                    for q in fn.chain(goal_place):
                        arm = fn.e["arms"][q]
                        if arm and any(flat(o) == flat(seg) for _, o, _ in arm[2]):
                            found = ("arm", arm, seg)
                            break
            if seg == "before":
                state = ("place", fn.places[parent] if parent is not None else i)
            elif lab[0] and flat(seg) == flat(lab[0]):
                state = ("label", i)
            elif isinstance(found, int):
                state = ("label", found)
            elif found:
                best = None
                for field, old, path in found[1][2]:
                    if flat(old) == flat(seg) and [norm(s) for s in segs[: len(path)]] == [norm(s) for s in path] and not field.endswith("-own"):
                        if best is None or len(path) > len(best[1]):
                            best = (f"{head}.{found[1][0]}.{field}", path)
                if not best:
                    raise Unresolved(f"{seg} in arm")
                segs = segs[len(best[1]):]
                state = ("path", best[0])
            elif seg in ("args", "ranges", "auto", "fn", "type_inv", "type-inv", "utf8"):
                seg = seg.replace("-", "_")
                if segs:
                    segs[0] = segs[0].replace("-", "_")
                state = ("path", f"{head}.{seg}")
            elif seg == "requires":
                pre = fn.e.get("pre")
                f = pre["fields"] if isinstance(pre, dict) and pre.get("fields") else (pre if isinstance(pre, list) else None)
                state = ("ens", f"{head}.requires", f) if f else ("path", f"{head}.requires")
            else:
                # skip an untold place
                if name == "Untold" and parent is None:
                    raise Unresolved(f"{seg} at Untold")
                raise Unresolved(f"{seg} at {name} (label {lab[0]})")
        elif kind == "label":
            i = state[1]
            name, parent, lab, callee, more = fn.e["places"][i][:5]
            best = own = None
            if len(state) > 2:
                segs = state[2] + segs
            part = False
            for q in fn.chain(goal_place):
                arm = fn.e["arms"][q]
                if not arm:
                    continue
                for field, old, path in arm[2]:
                    if flat(old) == flat(lab[0]) and field.endswith("-own") and not path and own is None:
                        own = f"{head}.{arm[0]}.{field}"
                    if flat(old) == flat(lab[0]) and len(segs) < len(path) and [norm(s) for s in segs] == [norm(s) for s in path[: len(segs)]]:
                        part = True
                    if flat(old) == flat(lab[0]) and [norm(s) for s in segs[: len(path)]] == [norm(s) for s in path]:
                        if field.endswith("-own"):
                            continue
                        if best is None or len(path) > len(best[1]):
                            best = (f"{head}.{arm[0]}.{field}", path)
            if best:
                segs = segs[len(best[1]):]
                state = ("path", best[0])
                continue
            if part:
                return ("label", i, segs)
            if own:
                state = ("path", own)
                continue
            if re.match(r"(shared-)?slice-known|array-known|mut-slice-known", norm(lab[0])) and segs[0] == "given":
                var = None
                for q in list(fn.chain(goal_place)) + list(range(len(fn.e["typed"]))):
                    for v, l in fn.e["typed"][q]:
                        if norm(l) == norm(lab[0]):
                            var = v
                            break
                    if var:
                        break
                if var:
                    segs.pop(0)
                    state = ("path", f"{head}.type_inv.{var}")
                    continue
            seg = segs.pop(0)
            for a, b in more or []:
                if norm(a) == norm(seg):
                    seg = b
            base = f"{head}.{lab[1]}"
            if seg == "ensures":
                cl = fn.e["clauses"][i]
                f = cl.get("fields") if isinstance(cl, dict) else None
                state = ("ens", f"{base}.ensures", f) if f else ("path", f"{base}.ensures")
            elif seg in ("new", "auto") and segs and callee and callee in fn.e["params"]:
                k = 0
                while segs and segs[0] == "1" and len(segs) > 1 and segs[1] in "01":
                    segs.pop(0)
                    k += 1
                if segs and segs[0].isdigit():
                    k += int(segs.pop(0))
                    ps = fn.e["params"][callee]
                    state = ("path", f"{base}.{seg}.{ps[k]}")
                else:
                    state = ("path", f"{base}.{seg}")
            else:
                # a name of the source in the label's fields
                if seg not in ("result", "ensures", "true", "false", "invariant", "given", "branch"):
                    seg = seg.replace("-", "_")
                state = ("path", f"{base}.{seg}")
        elif kind == "ens":
            seg = segs.pop(0)
            if seg.isdigit() and int(seg) < len(state[2]):
                k = int(seg)
                state = ("path", f"{state[1]}.{state[2][k]}")
            else:
                state = ("path", f"{state[1]}.{seg}")
        else:
            seg = segs.pop(0)
            state = ("path", f"{state[1]}.{seg}")
    return state


def show(fn, state, head):
    if state[0] == "label":
        return f"{head}.{fn.e['places'][state[1]][2][1]}"
    if state[0] == "place":
        raise Unresolved("a place alone")
    return state[1]


def turn(fn, place, body, head, where):
    env = {head: ("place", place)}
    out = []
    pos = 0
    LET = re.compile(r"let\s+([^\s:=(){}]+)\s*=\s*(%s)\s+in(\s+)" % PATH.pattern)
    while pos < len(body):
        m = LET.match(body, pos)
        if m and body[pos - 1 : pos] not in set("abcdefghijklmnopqrstuvwxyz_-'."):
            name, path, ws = m.group(1), m.group(2), m.group(3)
            segs = path.split(".")
            if segs[0] in env:
                try:
                    st = resolve(fn, place, env[segs[0]], segs[1:], head)
                    if st[0] == "path":
                        out.append(f"let {name} = {st[1]} in{ws}")
                        env.pop(name, None)
                    else:
                        env[name] = st
                        if st[0] == "place" or True:
                            pass
                    pos = m.end()
                    continue
                except Unresolved as x:
                    said.append(f"{where}: {path}: {x}")
        m = PATH.match(body, pos)
        if m:
            path = m.group(0)
            tail = ""
            while path.endswith("."):
                path, tail = path[:-1], "." + tail
            segs = path.split(".")
            if segs[0] in env:
                try:
                    st = resolve(fn, place, env[segs[0]], segs[1:], head)
                    if st[0] == "place":
                        out.append(head if len(segs) == 1 and segs[0] == head else path)
                        if not (len(segs) == 1 and segs[0] == head):
                            said.append(f"{where}: {path}: a place alone")
                    else:
                        out.append(show(fn, st, head))
                except Unresolved as x:
                    said.append(f"{where}: {path}: {x}")
                    out.append(path)
            else:
                out.append(path)
            out.append(tail)
            pos = m.end()
            continue
        out.append(body[pos])
        pos += 1
    return "".join(out)


BLOCK = re.compile(r"^(?:abbrev |unfoldable )?(?:pub )?([^\s:(){}]+) :(?= )")


def blocks(text):
    """Comment lines at the head, use lines, and declarations, each a list of lines."""
    head, uses, decls = [], [], []
    lines = text.rstrip("\n").split("\n")
    cur = None
    pend = []
    for line in lines:
        if line.startswith("use ") and cur is None:
            uses.append(line)
        elif line.startswith("--"):
            if cur is None and not uses and not decls:
                head.append(line)
            else:
                pend.append(line)
                cur = None
        elif BLOCK.match(line):
            cur = pend + [line]
            pend = []
            decls.append(cur)
        elif not line.strip():
            if cur is not None:
                cur = cur
        elif cur is not None:
            cur.append(line)
        else:
            raise ValueError(f"not understood: {line}")
    return head, uses, decls


def convert(path):
    rel = os.path.relpath(os.path.dirname(path), root)
    dotted = rel.replace(os.sep, ".")
    key = f"Rattle-all-proofs.{crate}.{dotted}.Lts" if merged else f"Rattle-{crate}-proofs.{dotted}.Lts"
    text = open(path, encoding="utf-8").read()
    if "tie.spec" not in text or "\nmodule _" in text:
        said.append(f"{rel}: walked by hand")
        return
    if key not in names:
        said.append(f"{rel}: no names ({key})")
        return
    fn = Fn(key, names[key])
    e = fn.e
    needs = {norm(a): (b, e["asked_at"][i][0]) for i, (a, b) in enumerate(e["needs"])}
    settled = {norm(s) for s in e["settled"]}
    loops = {norm(l[0][0]): (l, e["changed"][k]) for k, l in enumerate(e["loops"])}
    head, uses, decls = blocks(text)
    drop = re.compile(r"\.(Statement|Tie|Reads|Lts)(\.\{statement\})?( as [\w\-]+)?$")
    uses = [u for u in uses if not drop.search(u)]
    inv, ans, helpers = [], [], []
    for d in decls:
        comments = [l for l in d if l.startswith("--")]
        d = [l for l in d if not l.startswith("--")]
        m = BLOCK.match(d[0])
        name = m.group(1)
        sig = d[0][m.end():]
        k = 1
        while k < len(d) and not (d[k].startswith(name + " ") or d[k].startswith("unfolding")):
            sig += "\n" + d[k]
            k += 1
        if "tie.close" in "\n".join(d):
            continue
        mm = re.match(r" tie\.(invariant|decreases)-(\S+)", sig)
        if mm:
            what, loop = mm.group(1), mm.group(2)
            if norm(loop) not in loops:
                said.append(f"{rel}: loop {loop} of {list(loops)}")
                continue
            l, changed = loops[norm(loop)]
            newloop, vars_ = l[0][1], l[1]
            body = "\n".join(d[k:])
            b = re.match(re.escape(name) + r"\s+(.*?)\s*=(?=\s)", body, re.S)
            params = b.group(1).split()
            body = body[b.end():]
            ch = [v for v, c in zip(vars_, changed) if c]
            want = [f"l.initial.{v}" if c else f"l.{v}" for v, c in zip(vars_, changed)] + [f"l.{v}" for v in ch]
            if len(want) != len(params):
                said.append(f"{rel}: {what} of {loop}: {params} against {vars_} {changed}")
                continue
            table = {p: w for p, w in zip(params, want) if p != "_"}

            def sub(mm):
                t = mm.group(0)
                segs = t.split(".")
                if segs[0] in table:
                    return ".".join([table[segs[0]]] + segs[1:])
                return t

            body = re.sub(r"(?<![\w'.\-])[A-Za-z_][^\s(){}\[\];,@\"«»]*", sub, body)
            inv.append(comments + [f"abbrev pub {what}-{newloop} : goal.{what}-{newloop}", f"{what}-{newloop} l ={body}"])
            continue
        mm = re.match(r" tie\.Need-(\S+)((?: [\w\-]+)*)$", sig.strip() and " " + sig.strip())
        if not mm:
            helpers.append(comments + d)
            continue
        need = mm.group(1)
        cands = [norm(need), re.sub(r"^overflow-", "", norm(need)), norm(name)]
        cands += [c.replace("slice-bounds", "part") for c in cands]
        hit = next((c for c in cands if c in needs), None)
        unf = [l for l in d[k:] if l.startswith("unfolding")]
        body = "\n".join(l for l in d[k:] if not l.startswith("unfolding"))
        b = re.match(re.escape(name) + r"\s+([^=]*?)\s*=(?=\s)", body)
        params = b.group(1).split()
        body = body[b.end():]
        if body.strip() in TRIVIAL and not unf:
            continue
        if hit is None:
            if any(c in settled for c in cands):
                continue
            said.append(f"{rel}: goal {need} is not asked now: {' '.join(body.split())[:100]}")
            continue
        new, place = needs[hit]
        new_body = turn(fn, fn.places[place], body, params[0], f"{rel} {new}")
        params = [p for p in params if p != "κs"]
        ans.append(comments + [f"pub {new} : goal.{new}"] + unf + [f"{new} {' '.join(params)} ={new_body}"])
    folder = os.path.dirname(path)

    def write(file, module, parts, extra):
        body = "\n\n".join("\n".join(p) for p in parts)
        lines = head[:] if file == "Answers.antt" or not ans and not helpers else []
        lines += uses + [f"use Rattle.{crate}.proofs.{dotted}.{module} as goal", "", body]
        with open(os.path.join(folder, file), "w", encoding="utf-8") as f:
            f.write("\n".join(lines) + "\n")

    if inv:
        words = "\n".join("\n".join(p) for p in inv)
        need_help = [h for h in helpers if re.search(r"(?<![\w'\-])" + re.escape(BLOCK.match([l for l in h if not l.startswith('--')][0]).group(1)) + r"(?![\w'\-])", words)]
        if need_help:
            said.append(f"{rel}: the invariant names a helper")
        write("Invariants.antt", "Given", need_help + inv, None)
    if ans:
        write("Answers.antt", "Goals", helpers + ans, None)
    elif helpers:
        said.append(f"{rel}: helpers and no answers")
        write("Answers.antt", "Goals", helpers, None)
    os.remove(path)


for folder, dirs, files in sorted(os.walk(root)):
    if "Proof.antt" in files:
        try:
            convert(os.path.join(folder, "Proof.antt"))
        except Exception as x:
            said.append(f"{os.path.relpath(folder, root)}: {type(x).__name__} {x}")
print("\n".join(said))
