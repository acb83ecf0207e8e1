"""Checks what claimdecode writes as JSON: read strictly, a line for each message; the parts are the message's bytes, each
once; and what is found is what the files of cases say. Usage: decode_parts.py CLAIMDECODE REPOSITORY"""
import json
import re
import subprocess
import sys

program, repository = sys.argv[1:]
LETTERS = {"F": 0x1C, "G": 0x1D, "S": 0x1E, "\\": 0x5C}
SPELLED = re.compile(rb"\\x([0-9A-Fa-f]{2})|\\([FGS\\])|([ -\[\]-~])")


def unprinted(text):
    """The bytes that printed bytes spell; None where they spell none."""
    out, place = bytearray(), 0
    while place < len(text):
        spelled = SPELLED.match(text, place)
        if not spelled:
            return None
        code, letter, plain = spelled.groups()
        out.append(int(code, 16) if code else LETTERS[letter.decode()] if letter else plain[0])
        place = spelled.end()
    return bytes(out)


def once(pairs):
    """An object, no key of which stands twice."""
    made = dict(pairs)
    if len(made) != len(pairs):
        raise ValueError("a key stands twice")
    return made


def decoded(text, *words):
    """The objects that the program writes about an input, and its status."""
    run = subprocess.run([program, "--json", *words], input=text, stdout=subprocess.PIPE, check=False)
    lines = run.stdout.decode("ascii").splitlines()
    SAID.extend(lines)
    return [json.loads(line, object_pairs_hook=once) for line in lines], run.returncode


# All lines that the program wrote.
SAID = []


def made_again(wrong):
    """How many of all descriptions are made into their messages again: `--encode` gives the bytes that their parts are."""
    run = subprocess.run(
        [program, "--encode", "--hex"], input="\n".join(SAID).encode() + b"\n", stdout=subprocess.PIPE, check=False
    )
    lines, same = run.stdout.decode("ascii").splitlines(), 0
    if len(lines) != len(SAID):
        wrong.append(f"--encode: {len(lines)} lines for {len(SAID)} descriptions")
    for said, line in zip(SAID, lines):
        message = json.loads(said)
        wanted = None if message["kind"] == "none" else bytes_of(message).hex()
        if line.startswith("# line ") if wanted is None else line == wanted:
            same += 1
        else:
            wrong.append(f"--encode: another message: {line[:120]} of {said[:120]}")
    return same


def bytes_of(message):
    """The bytes that the parts of a message stand for."""
    out = bytearray()
    for part in message["parts"]:
        if part["at"] != len(out):
            raise ValueError(f"a part at {part['at']} stands behind {len(out)} bytes")
        value = unprinted(part.get("value", "").encode())
        field = part.get("field", "")
        if part["name"] == "transaction":
            out += b"\x1d"
        elif field == "111-AM":
            out += b"\x1e\x1cAM" + value
        elif field and not is_header(message, part):
            out += b"\x1c" + unprinted(field.encode())[-2:] + value
        else:
            out += value
    return bytes(out)


def is_header(message, part):
    """Whether a part is a field of a header: these have no separator of their own."""
    return part["field"] in HEADER


HEADER = {"101-A1", "102-A2", "103-A3", "104-A4", "109-A9", "202-B2", "201-B1", "401-D1", "110-AK", "501-F1"}


class Cases:
    """The rows of the files of cases of messages, with their names filled in."""

    def __init__(self):
        self.names = {}
        self.take("crates/rows/data/claims.texts", bare=True)

    def take(self, name, bare=False):
        """The rows of a file: word, argument as bytes, outcome."""
        known, rows = dict(self.names), []
        for line in open(f"{repository}/{name}", encoding="ascii").read().splitlines():
            if not line or line.startswith("#"):
                continue
            if bare or line.startswith("let "):
                key, text = line.removeprefix("let ").split(" = ", 1)
                self.names[key] = self.filled(text)
                continue
            call, _, outcome = line.partition(" -> ")
            word, _, argument = call.partition(" ")
            rows.append((word, unprinted(self.filled(argument).encode()), self.filled(outcome)))
        if not bare:
            self.names = known
        return rows

    def filled(self, text):
        """A text with its names filled in."""

        def fill(found):
            inside = found.group(1)
            times = re.fullmatch(r"(.*)\*(\d+)", inside, re.S)
            return times.group(1) * int(times.group(2)) if times else self.names[inside]

        return re.sub(r"<([^<>]*)>", fill, text)


def printed(bytes_):
    """Bytes as they are printed."""
    signs = {0x1C: "\\F", 0x1D: "\\G", 0x1E: "\\S", 0x5C: "\\\\"}
    return "".join(signs.get(b) or (chr(b) if 0x20 <= b <= 0x7E else f"\\x{b:02x}") for b in bytes_)


def fault_of(message):
    """The fault of framing that was found, as the files of cases spell it; None where it is framed."""
    for found in message["findings"]:
        if found["finding"] == "not_framed":
            name, at = found["fault"], found.get("at")
            if name == "CountMismatch":
                return f"CountMismatch {{ said: {found['said']}, found: {found['found']} }}"
            name = name if at is None else f"{name}({at})"
            header = {"Short", "BadBin", "BadCount", "DateNotDigits"}
            return f"Header({name})" if name in header or name.startswith("Separator") else name
    return None


def order_of(message):
    """What the first transaction comes to, as the files of cases spell it."""
    codes = list(
        dict.fromkeys(
            f["code"] for f in message["findings"] if f.get("transaction") == 1 and f["finding"] == "rejected"
        )
    )
    return "rejected " + ",".join(codes[:5]) if codes else "taken"


def answer_of(message):
    """The first ruling, or why there is none."""
    found = message["findings"][0]
    if found["finding"] == "not_framed":
        return "Framing"
    if found["finding"] == "no_answer":
        return found["fault"]
    if found["ruling"] == "rejected":
        return "rejected " + found["codes"].replace(" ", ",")
    words = f"{found['ruling']} {found['authorization']} prescription={found['prescription']}"
    if found["ruling"] == "reversed":
        return words
    return words + "".join(f" {part}={found[part]}" for part in ("cost", "fee", "copay", "total"))


def judged(kind, word, message):
    """What was found, as the row spells it; None where the row speaks of something else."""
    if word in ("request", "response") and kind == "framing":
        return fault_of(message)
    if word in ("order", "reversal") and kind == "orders":
        return order_of(message)
    if word == "answer" and kind == "answers":
        return answer_of(message)
    return None


def main():
    cases, compared, whole, wrong = Cases(), 0, 0, []
    for name, kind, form in (
        ("framing.rows", "framing", None),
        ("orders.rows", "orders", "request"),
        ("reversals.rows", "orders", "request"),
        ("answers.rows", "answers", "answer"),
        ("envelopes.rows", "", "packet"),
        ("headers.rows", "", "request"),
    ):
        for word, argument, outcome in cases.take(f"cases/messages/{name}"):
            if argument is None or len(argument) > 1_000_000:
                continue
            asked = form or {"request": "request", "response": "answer"}.get(word, "request")
            messages, status = decoded(printed(argument).encode() + b"\n", asked)
            if not argument or argument.startswith(b"#"):
                continue
            if status != 0 or len(messages) != 1 or bytes_of(messages[0]) != argument:
                wrong.append(f"{name}: {word}: the parts are not the message: {printed(argument)[:120]}")
                continue
            whole += 1
            found = judged(kind, word, messages[0])
            if kind == "framing" and word in ("request", "response"):
                is_fault = re.match(r"(Header|No|Bad|Empty|Count)", outcome) is not None
                compared += 1
                if (found or "") != (outcome if is_fault else ""):
                    wrong.append(f"{name}: {word}: {found} in place of {outcome[:80]}: {printed(argument)[:120]}")
            elif found is not None and re.match(r"(taken|rejected|paid|duplicate|reversed|No|Bad|Framing)", outcome):
                compared += 1
                if found != outcome and not outcome.startswith(found + " "):
                    wrong.append(f"{name}: {word}: {found} in place of {outcome[:80]}: {printed(argument)[:120]}")
    lines = open(f"{repository}/crates/claimdecode/stdin", "rb").read().splitlines()
    asked = [(n, unprinted(line)) for n, line in enumerate(lines, 1) if line and not line.startswith(b"#")]
    messages, _ = decoded(b"\n".join(lines) + b"\n")
    if [message["line"] for message in messages] != [n for n, _ in asked]:
        wrong.append("the run of the program: not each line has its object")
    for message, (number, bytes_) in zip(messages, asked):
        whole += 1
        if (message["kind"] == "none") != (bytes_ is None) or (bytes_ is not None and bytes_of(message) != bytes_):
            wrong.append(f"the run of the program: line {number} is not told whole")
    in_hex = b"\n".join(b"" if b is None else b.hex().encode() for _, b in asked) + b"\n"
    again, status = decoded(in_hex, "--hex")
    plain = [dict(m, line=0) for m in messages if m["kind"] != "none"]
    if status != 0 or [dict(m, line=0) for m in again] != plain:
        wrong.append("hexadecimal digits are told otherwise than printed bytes")
    again = made_again(wrong)
    print("\n".join(wrong), end="\n" if wrong else "", file=sys.stderr)
    print(
        f"decode: {whole} messages told whole, {again} descriptions made again, {compared} findings compared, {len(wrong)} otherwise"
    )
    return 1 if wrong else 0


sys.exit(main())
