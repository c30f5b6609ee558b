"""Judges examples, requests and replies by docs/openapi.json and docs/lines.schema.json: see openapi.sh.

    openapi.py DOCS METASCHEMA RUNS SEED [PROGRAM WORK]    WORK is an empty folder
"""
import collections
import json
import pathlib
import re
import sys

import jsonschema

import model
import model_runs

Draft = jsonschema.Draft202012Validator
UNJUDGED = {(14,), (15,), (11, 11)}  # Several members that do not go together.


def nullable_types(schema):
    """A schema of OpenAPI 3.0 as one of JSON Schema."""
    if isinstance(schema, list):
        return [nullable_types(one) for one in schema]
    if not isinstance(schema, dict):
        return schema
    made = {name: nullable_types(value) for name, value in schema.items() if name != "nullable"}
    return made | {"type": [schema["type"], "null"]} if schema.get("nullable") else made


# ---- What is malformed by its form: the model with looser readers.


def loose_prefix(text):
    """Any text of the loose shape, as a prefix that may have every maxLength."""
    if not isinstance(text, str):
        return None
    address, _, length = text.partition("/")
    if not re.fullmatch("[0-9]{1,3}", length) or int(length) > 128:
        return None
    shapes = r"[0-9]{1,3}(\.[0-9]{1,3}){3}|[0-9a-fA-F:]*:[0-9a-fA-F:]*"
    return (6, 0, 0) if re.fullmatch(shapes, address) else None


def loose_day(text):
    return text if isinstance(text, str) and re.fullmatch("[0-9]{4}-[0-9]{2}-[0-9]{2}", text) else None


def loose_whole(value, lowest, highest):
    """A number of another spelling, too."""
    if isinstance(value, model.OtherNumber):
        return lowest
    return value if type(value) is int and lowest <= value <= highest else None


STRICT = {name: getattr(model, name) for name in ("read_prefix", "read_whole", "READERS")}


def loosened(read):
    """The faults that it finds with looser readers."""
    readers = {model.read_prefix: loose_prefix, model.read_day: loose_day}
    loose = {name: (readers.get(reader, reader), fault) for name, (reader, fault) in model.READERS.items()}
    loose["scope"] = (lambda value: value if value == "all" else loose_prefix(value), 9)
    model.read_prefix, model.read_whole, model.READERS = loose_prefix, loose_whole, loose
    try:
        return [fault for fault in read() if fault not in UNJUDGED]
    finally:
        for name, value in STRICT.items():
            setattr(model, name, value)


def line_faults(value):
    word = value.get("do") if isinstance(value, dict) else None
    if not isinstance(word, str) or word not in model.FURTHER:
        return [(2,)]
    faults = []
    model.read_members(value, ["day", "caller", "do"] + model.FURTHER[word], faults)
    return faults


def body_faults(asked, octets, names):
    faults = []
    model.read_body(asked, octets, names, faults)
    return faults


def once(pairs):
    """An object, whose members are there once each."""
    repeated = [name for name, count in collections.Counter(name for name, _ in pairs).items() if count > 1]
    if repeated:
        sys.exit(f"openapi: repeated members: {repeated}")
    return dict(pairs)


class Judge:
    """What has to validate and what has not to, counted."""

    def __init__(self, docs):
        self.counts, self.failed = collections.Counter(), False
        lines, self.api = [json.loads((docs / name).read_text(encoding="ascii"), object_pairs_hook=once)
                           for name in ("lines.schema.json", "openapi.json")]
        self.lines = lines
        self.components = nullable_types(self.api["components"])
        self.line, self.reply = Draft(lines), Draft({"$ref": "#/$defs/Reply", "$defs": lines["$defs"]})
        self.validators = {}

    def fail(self, *words):
        if not self.failed:
            print(*[str(word)[:1500] for word in words], sep="\n    ")
        self.failed = True

    def expect(self, what, validator, value, valid):
        """Whether it validates as it has to; None where nothing is asked."""
        self.counts[what + {True: "", False: ", malformed by its form", None: ", malformed by its values"}[valid]] += 1
        if valid is not None and validator.is_valid(value) != valid:
            error = next(validator.iter_errors(value), None)
            self.fail(f"{what} {'does not validate' if valid else 'validates'}:", value, error and error.message)

    def schema(self, pointer, schema):
        """The validator of a schema in the interface, by its place."""
        if pointer not in self.validators:
            self.validators[pointer] = Draft(nullable_types(schema) | {"components": self.components})
        return self.validators[pointer]

    # ---- Lines.

    def judge_line(self, octets, reply):
        if len(octets) > model.LINE_LIMIT:
            return
        try:
            value = model.read_json(octets)
        except ValueError:
            self.counts["no JSON"] += 1
            value = None
        if value is not None:
            strict = line_faults(value)
            form = loosened(lambda: line_faults(value)) if strict else []
            self.expect("a line", self.line, json.loads(octets), False if form else None if strict else True)
        self.expect("a reply", self.reply, json.loads(reply), True)

    # ---- Messages.

    def judge_message(self, octets, response):
        head, _, body = response.partition(b"\r\n\r\n")
        if not head:
            return
        status = head.split(b" ")[1].decode()
        kind = re.search(rb"Content-Type: (\S+)", head)[1].decode()
        first = octets.split(b"\r\n", 1)[0].split(b" ")
        found = model.route_of(first[1].decode("utf-8", "replace")) if len(first) == 3 else None
        operation = None
        if found:
            template = next(path for path, methods in model.ROUTES if methods is found[0])
            operation = self.api["paths"][template].get(first[0].decode().lower()) if first[0].isupper() else None
        self.judge_response(template if operation else None, first[0].decode("latin-1"), operation, status, kind, body)
        if operation and (status in ("200", "403") or body.startswith(b'{"malformed"')):
            self.judge_request(template, found, first[0].decode(), operation, octets, status)

    def judge_response(self, template, method, operation, status, kind, body):
        """A response of no operation is one of those for other paths, methods and heads."""
        others = {"400": "Malformed", "404": "NoRoute", "405": "NoMethod", "411": "NoLength", "413": "TooLarge"}
        if operation and status in operation["responses"]:
            declared = operation["responses"][status]
            name = declared.get("$ref", f"{template} {method}").split("/")[-1] + status
        elif status in others and (not operation or status in ("404", "405")):
            declared, name = {"$ref": "#/components/responses/" + others[status]}, others[status]
        else:
            return self.fail(f"{method} {template} has no status {status}")
        if "$ref" in declared:
            declared = self.api["components"]["responses"][declared["$ref"].split("/")[-1]]
        else:
            name = f"{template} {method} {status}"
        if kind not in declared["content"]:
            return self.fail(f"{method} {template} {status} has no {kind}")
        value = body.decode() if kind == "text/csv" else json.loads(body)
        self.expect("a response", self.schema((name, kind), declared["content"][kind]["schema"]), value, True)

    def judge_request(self, template, found, method, operation, octets, status):
        """A body of a request that was read to its end; whether path and caller are names is judged too."""
        methods, parameters = found
        head, _, body = octets.partition(b"\r\n\r\n")
        for text in re.findall(rb"(?i)\r\ndesk-caller:[ \t]*(.*?)[ \t]*(?=\r\n|\Z)", head):
            text = text.decode("latin-1")
            self.expect("a caller", self.schema("caller", self.components["schemas"]["Name"]), text,
                        model.read_name(text) is not None)
        for name, text in parameters.items():
            number = model.read_digits(text, 10**9)
            value = number if name == "number" and number is not None else text
            schema = self.components["parameters"][name]["schema"]
            faulty = model.READERS[name][0](value) is None
            self.expect("a parameter", self.schema(("parameter", name), schema), value, not faulty)
        if "requestBody" not in operation:
            return
        kind, = operation["requestBody"]["content"]
        length = re.search(rb"(?i)\r\ncontent-length:[ \t]*([0-9]+)", head)
        body, asked = body[:int(length[1])], methods[method]
        do = {"slurms": "slurm"}.get(asked, asked)
        names = [name for name in model.FURTHER[do] if name not in parameters]
        schema = operation["requestBody"]["content"][kind]["schema"]
        if kind == "text/csv":
            # By its header, and that a row follows.
            records = model.csv_records(body)
            self.expect("a CSV body", self.schema((template, method), schema), body.decode("utf-8", "replace"),
                        records[:1] == [model.IMPORT_HEADER] and len(records) > 1)
            return
        try:
            value = json.loads(body)
            model.read_json(body)
        except ValueError:
            self.counts["no JSON"] += 1
            return
        strict = body_faults(asked, body, names)
        form = loosened(lambda: body_faults(asked, body, names)) if strict else []
        valid = False if form else None if strict else True
        self.expect("a body", self.schema((template, method), schema), value, valid)

    # ---- Whole documents.

    def judge_documents(self, metaschema):
        self.expect("lines.schema.json", Draft(Draft.META_SCHEMA), self.lines, True)
        meta = jsonschema.Draft4Validator(json.loads(pathlib.Path(metaschema).read_text(encoding="utf-8")))
        self.expect("openapi.json", meta, self.api, True)
        text = json.dumps(self.api)
        for pointer in set(re.findall(r'"\$ref": "#/([^"]*)"', text)):
            node = self.api
            for part in pointer.split("/"):
                node = node.get(part, {})
            if not node:
                self.fail(f"openapi.json has no {pointer}")
        here, there = self.lines["$defs"], nullable_types(self.api["components"]["schemas"])
        for name in here.keys() & there.keys():
            if json.dumps(here[name]).replace("#/$defs/", "#/components/schemas/") != json.dumps(there[name]) \
                    and here[name] != json.loads(json.dumps(there[name]).replace("#/components/schemas/", "#/$defs/")):
                self.fail(f"the two have another {name}")

    def judge_tables(self, formats):
        """Each path and method of FORMATS stands there once, each status, no other, and a body where it has one."""
        section = formats.split("\n## HTTP\n")[1].split("\n## ")[0]
        said, path = [], None
        rows = re.findall(r"^\| (?:`(/[^`]*)`)? ?\| ([A-Z]+) \| [^|]* \| (.*) \|$", section, re.MULTILINE)
        for first, method, body in rows:
            path = first or path
            said.append((path, method.lower(), body != "none"))
        there = [(path, method, "requestBody" in operation) for path, item in self.api["paths"].items()
                 for method, operation in item.items() if method != "parameters"]
        listed = " ".join(re.findall(r"^\| ([0-9, ]+) \|", section, re.MULTILINE))
        statuses = re.findall(r"\b[1-5][0-9]{2}\b", listed)
        named = {"NoRoute": "404", "NoMethod": "405"}
        found = {status for path, method, _ in there for status in self.api["paths"][path][method]["responses"]}
        found |= {named[name] for name in self.api["components"]["responses"] if name in named}
        for what, one, other in (("paths", said, there), ("statuses", statuses, list(found))):
            print(f"{what}: {len(one)}")
            one, other = collections.Counter(one), collections.Counter(other)
            if one != other or not one:
                self.fail(f"{what} differ:", list(one - other), list(other - one))
        # The other statuses of an operation follow from whether it takes a body, and whether a rule may deny it.
        for path, method, body in there:
            possible = {"200", "400", "411", "503"} | ({"413"} if body else set())
            declared = set(self.api["paths"][path][method]["responses"])
            if declared - {"403"} != possible:
                self.fail(f"{method} {path} has the statuses", sorted(declared))

    def judge_examples(self, formats):
        lines = re.search("```jsonl\n(.*?)```", formats, re.DOTALL)[1].splitlines()
        for line, reply in zip(lines[::2], lines[1::2]):
            self.judge_line(line.encode(), reply.encode())
        blocks = re.findall("```http\n(.*?)```", formats, re.DOTALL)
        for request, response in zip(blocks[::2], blocks[1::2]):
            head, _, body = request.partition("\n\n")
            octets = head.replace("\n", "\r\n").encode() + b"\r\n\r\n" + body.rstrip("\n").encode()
            head, _, body = response.partition("\n\n")
            self.judge_message(octets, head.replace("\n", "\r\n").encode() + b"\r\n\r\n" + body.encode())
        # That of status 503 is for any request.
        head, _, body = re.search("```\n(HTTP/1.1 503 .*?)```", formats, re.DOTALL)[1].partition("\n\n")
        kind = re.search(r"Content-Type: (\S+)", head)[1]
        for template, item in self.api["paths"].items():
            for method, operation in item.items():
                if method != "parameters":
                    self.judge_response(template, method, operation, "503", kind, body.encode())

    def judge_run(self, seed):
        """A run in which the model answers."""
        requests = model_runs.Requests(seed)
        desk = model.Desk(requests.pick(model_runs.CHARTERS))
        if seed % 5:
            for line in requests.lines(seed):
                self.judge_line(line, desk.answer_line(line))
            return
        opening = requests.opening()
        for day in [requests.day() for _ in range(requests.pick([1, 2, 3]))]:
            messages = [requests.message(request) for request in opening]
            messages += [requests.message(requests.request()) for _ in range(requests.random.randint(10, 40))]
            opening = []
            for message in messages:
                self.judge_message(message, model.answer_message(desk, day, message))


def main(docs, metaschema, runs, seed, program=None, work=None):
    judge = Judge(pathlib.Path(docs))
    formats = (pathlib.Path(docs) / "FORMATS.md").read_text(encoding="utf-8")
    judge.judge_documents(metaschema)
    judge.judge_tables(formats)
    judge.judge_examples(formats)
    print(", ".join(f"{count} x {what}" for what, count in judge.counts.items()))
    for place in range(int(seed), int(seed) + int(runs)):
        if program:
            # The program's answers, which have to be the model's.
            model_runs.run(program, work, place, judge.judge_line if place % 5 else judge.judge_message)
        else:
            judge.judge_run(place)
        if judge.failed:
            print(f"seed {place}")
            break
    for what, count in sorted(judge.counts.items()):
        print(f"{what}: {count}")
    sys.exit(judge.failed)


if __name__ == "__main__":
    main(*sys.argv[1:])
