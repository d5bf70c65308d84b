#!/usr/bin/env python3
"""judge.py PAGE < outputs: judge and cause as docs/SPEC.md has them, compared with what the library
gave (tests/spec/outputs.c); and the test vectors of the page (section 15), compared
with the library and with scheme.py. The last line is 'N passed, M failed'."""
import re
import sys

from scheme import be, digest, file_key, keyed, number, opened, sealed_record, walk


# ---- Section 6: the card ----

def read_card(b):
    fields = {"version": b[2], "id": b[3:11]}
    for name, at, width in (("B", 11, 2), ("d", 13, 4), ("r", 17, 2), ("t", 19, 4), ("n", 23, 4),
                            ("ctr", 27, 8), ("next", 35, 4), ("open", 39, 4)):
        fields[name] = number(b[at:at + width])
    fields.update(last=fields["ctr"], pending=0, count=0)
    if b[2] == 3:
        fields.update(last=number(b[43:51]), pending=number(b[51:59]), count=number(b[59:63]))
    return fields


def header_fits(b):
    return b[2] in (1, 2, 3) and len(b) == (63 if b[2] == 3 else 43) and number(b[:2]) == len(b) - 2


def limits_fit(c):
    pending = c["pending"] == c["count"] == 0 or (
        c["pending"] == c["last"] and c["pending"] > c["ctr"]
        and c["n"] <= c["count"] <= 16777216 and c["open"] == 0)
    return (1 <= c["B"] <= 4096 and 1 <= c["d"] <= 1048576 and 1 <= c["r"] <= min(c["d"], 512)
            and 1 <= c["t"] <= 65536 and 1 <= c["n"] <= 16777216 and c["ctr"] <= 4294967295
            and 1 <= c["next"] <= c["t"] + 1 and c["open"] in (0, c["next"] - 1)
            and c["ctr"] <= c["last"] <= 4294967295 and pending)


# ---- Section 10: judge and cause ----

def refusal(role, master, card):
    if role not in (2, 3):
        return 22
    if len(master) != 32 or len(card) not in (43, 63):
        return 1
    if not header_fits(card):
        return 2
    c = read_card(card)
    return 3 if not limits_fit(c) else 9 if c["open"] == 0 else 0


def cause_of(master, c, reply):
    if len(reply) != 110:
        return 1
    record, version = reply[47:], c["version"]
    if (number(reply[:2]), reply[2], number(record[:2]), record[2]) != (108, version, 61, version):
        return 2
    if reply[3:11] != c["id"] or {number(reply[11:15]), number(record[11:15])} != {c["open"]}:
        return 3
    if number(record[3:11]) != c["ctr"]:
        return 4
    token = opened(file_key(master, 3, c["id"]), c["ctr"], c["open"], record)
    return 5 if token is None else 6 if token != reply[15:47] else 0


def judge(role, master, card, reply):
    """The result of judge, the card after it, and the result of cause."""
    code = refusal(role, master, card)
    if code:
        return code, card, code
    cause = cause_of(master, read_card(card), reply)
    return 11 if cause else 0, card[:39] + bytes(4) + card[43:], 256 * cause


# ---- Section 15: the test vectors ----

def computed():
    """What scheme.py makes of the file of section 15."""
    master, file_id, d, r = bytes(range(32)), bytes(range(0xA0, 0xA8)), 5, 3
    out = {name: file_key(master, label, file_id) for label, name in enumerate("WZK", 1)}
    blocks = [bytes([0, *range(4 * m + 1, 4 * m + 5)]) for m in range(7)]
    changed = [blocks[0], b"\x00\xde\xad\xbe\xef", *blocks[2:]]
    keys = [(keyed(out["W"], be(4, i)), keyed(out["Z"], be(4, i))) for i in (1, 2, 3)]
    for ctr, contents in ((0, blocks), (1, changed)):
        made = [digest(k, c, d, r, contents) for k, c in keys]
        records = [sealed_record(out["K"], 2, ctr, i, x[0]) for i, x in enumerate(made, 1)]
        out[f"table-{ctr + 1}"] = b"".join(records)
        if ctr == 0:
            out["totals-1"] = be(8, sum(x[1] for x in made)) + be(8, sum(x[2] for x in made))
    k, c = keys[0]
    out.update(k=k, c=c, digest=made[0][0])
    out["P"] = bytes(walk(k, d, x)[0] for x in range(d))
    out["turns"] = bytes(walk(k, d, x)[1] for x in range(d))
    backward = [walk(k, d, 1, back=True) for k, c in keys]  # block 2 is in row 2
    out["totals-2"] = be(8, sum(turns for j, turns in backward))
    out["totals-2"] += be(8, sum(2 for j, turns in backward if j + 1 <= r))
    out["reply"] = be(2, 108) + b"\x02" + file_id + be(4, 1) + made[0][0] + records[0]
    out["totals-4"] = be(8, made[0][1]) + be(8, made[0][2])
    return out


def page_vectors(path):
    found, name = {}, None
    for line in open(path, encoding="utf-8").read().split("\n## 15.")[1].split("\n"):
        start = re.fullmatch(r"    (\S+) = ([0-9a-f]+)", line)
        more = re.fullmatch(r" {8,}([0-9a-f]+)", line)
        if start:
            name = start.group(1)
            found[name] = start.group(2)
        elif more and name:
            found[name] += more.group(1)
    return {name: bytes.fromhex(text) for name, text in found.items()}


def main(page):
    counts, vectors = [0, 0], {}

    def check(what, holds):
        counts[not holds] += 1
        if not holds:
            print("spec:", what)

    for line in sys.stdin:
        kind, *words = line.split()
        if kind == "vector":
            vectors[words[0]] = bytes.fromhex(words[1])
            continue
        role, code, cause = int(words[0]), int(words[4]), int(words[6])
        master, card, reply, after = (bytes.fromhex(words[i].strip("-")) for i in (1, 2, 3, 5))
        check("differs: " + line.strip(), judge(role, master, card, reply) == (code, after, cause))
    here, page_says = computed(), page_vectors(page)
    for name in sorted(set(vectors) | set(here) | set(page_says)):
        values = [x[name] for x in (vectors, here, page_says) if name in x]
        check(f"vector {name}", name in page_says and len(values) > 1 and len(set(values)) == 1)
    print(f"{counts[0]} passed, {counts[1]} failed")
    return 1 if counts[1] or not counts[0] else 0


if __name__ == "__main__":
    sys.exit(main(sys.argv[1]))
