#!/usr/bin/env python3
"""Checks docs/openapi.json: that it is whole, that its examples stand in examples/sessions, and that the program keeps to it. Each
operation is sent through `venue session` with each parameter and each member of its body right and wrong, without a key, and with heads that
are refused, and every reply is judged by the schemas. A member that a schema doesn't name is a mistake, a status that the operation doesn't
list is one, and so is what is listed and no reply was, or had. Only want of memory isn't asked for. What changes something is sent once more with a journal
whose file may not grow. Ways round walls are asked for over examples/walls.

usage: openapi_replies.py [PROGRAM]   (without PROGRAM the launcher ./venue, which builds the program if need be)
It prints each mistake and a line at the end, and ends with status 1 at a mistake.
"""
import json
import os
import re
import resource
import shutil
import subprocess
import sys
import tempfile
from urllib.parse import quote

TOP = os.path.dirname(os.path.dirname(os.path.abspath(__file__)))
EXAMPLES = os.path.join(TOP, "examples")
KEY = "x-staff-key: desk-key-1"
# The name of the base with a journal, and of that.
JOURNAL = "full"
# The words of schemas that `faults_of` judges, or that say nothing of a value.
WORDS = {"$ref", "type", "description", "enum", "const", "pattern", "minimum", "maximum", "minItems", "maxItems", "uniqueItems", "minProperties",
         "items", "required", "properties", "additionalProperties", "oneOf", "default"}
TYPES = {"object": dict, "array": list, "string": str, "integer": int, "boolean": bool, "null": type(None)}
# The statuses that each operation has, by its method, and the schemas of what is sent or can't be asked for.
LEAST = {"get": {"200", "400", "409", "413", "431", "501", "503"}, "post": {"200", "400", "403", "409", "413", "431", "501", "503"}}
NO_REPLY = {"AskedIdentifier", "Closure", "Publication", "WantOfMemory"}
mistakes, used, judged = [], set(), 0


def need(holds, what):
    if not holds:
        mistakes.append(what)
    return holds


def objects(value, where="#"):
    """All objects within a value, each with where it stands."""
    if isinstance(value, dict):
        yield where, value
    for name, item in value.items() if isinstance(value, dict) else enumerate(value) if isinstance(value, list) else ():
        yield from objects(item, f"{where}/{name}")


def resolve(document, value):
    """What a reference stands for; other values stand for themselves."""
    while "$ref" in value:
        path = value["$ref"].split("/")
        value = document
        for word in path[1:]:
            value = value[word]
    return value


def operations(document):
    """Path, method, operation, and its parameters."""
    for path, item in document["paths"].items():
        for method in ("get", "post"):
            if method in item:
                yield path, method, item[method], [resolve(document, it) for it in item[method].get("parameters", [])]


def compact(value):
    return json.dumps(value, ensure_ascii=False, separators=(",", ":"))


def check_references(document):
    found = set()
    for where, value in objects(document):
        if "$ref" in value:
            found.add(value["$ref"])
            try:
                resolve(document, value)
            except KeyError:
                need(False, f"{where}: {value['$ref']} names nothing")
    for kind in ("parameters", "responses", "schemas"):
        for name in document["components"][kind]:
            need(f"#/components/{kind}/{name}" in found, f"{kind}: {name} is used nowhere")


def check_schema(schema, where):
    need(set(schema) <= WORDS, f"{where}: unknown words {sorted(set(schema) - WORDS)}")
    need(set(schema.get("required", [])) <= set(schema.get("properties", {})), f"{where}: a required member that isn't named")
    for item in [*schema.get("properties", {}).values(), *schema.get("oneOf", []), schema.get("items"), schema.get("additionalProperties")]:
        if isinstance(item, dict):
            check_schema(item, where)


def check_examples(document):
    """Each example of a body stands in the story of its name, and is of its schema."""
    for where, content in objects(document):
        for story, example in content.get("examples", {}).items() if "schema" in content else ():
            file = "request" if "requestBody" in where else "reply"
            with open(os.path.join(EXAMPLES, "sessions", story, file), encoding="utf-8", newline="") as text:
                need("\r\n\r\n" + compact(example["value"]) in text.read(), f"{where}: the example {story} isn't in that story")
            need(not faults_of(document, content["schema"], example["value"]), f"{where}: the example {story} isn't of its schema")


def check_operations(document):
    names = [operation["operationId"] for _, _, operation, _ in operations(document)]
    need(len(names) == len(set(names)), "two operations of one name")
    for path, method, operation, parameters in operations(document):
        where, lacks = operation["operationId"], LEAST[method] - set(operation["responses"])
        need(not lacks, f"{where}: lacks the statuses {sorted(lacks)}")
        need((method == "post") == (operation.get("security") == [{"staffKey": []}]), f"{where}: wants a key, or doesn't")
        need({it["name"] for it in parameters if it["in"] == "path"} == set(re.findall(r"{(\w+)}", path)), f"{where}: other parameters than its path's")


def faults_of(document, schema, value, where="body", others_pass=False):
    """What isn't as the schema says. Members that aren't named are a fault, unless they pass, as they do in what is sent."""
    if "$ref" in schema:
        faults = faults_of(document, resolve(document, schema), value, where, others_pass)
        if not faults:
            name = schema["$ref"].split("/")[-1]
            used.update([name], (f"{name}.{member}" for member in value) if isinstance(value, dict) else ())
        return faults
    if "oneOf" in schema:
        fitting = [it for it in schema["oneOf"] if not faults_of(document, it, value, where, others_pass)]
        return [] if len(fitting) == 1 else [f"{where}: {len(fitting)} of the alternatives fit"]
    kinds = [schema["type"]] if isinstance(schema.get("type"), str) else schema.get("type", [])
    if kinds and not any(type(value) is TYPES[kind] for kind in kinds):
        return [f"{where}: {value!r} is no {' or '.join(kinds)}"]
    size = len(value) if isinstance(value, (list, dict)) else 0
    tests = {"enum": lambda listed: value in listed, "const": lambda only: value == only,
             "pattern": lambda pattern: not isinstance(value, str) or re.search(pattern, value),
             "minimum": lambda least: value >= least, "maximum": lambda most: value <= most,
             "minItems": lambda least: not isinstance(value, list) or size >= least, "maxItems": lambda most: not isinstance(value, list) or size <= most,
             "minProperties": lambda least: not isinstance(value, dict) or size >= least,
             "uniqueItems": lambda _: len({compact(item) for item in value}) == size, "required": lambda names: set(names) <= set(value)}
    faults = [f"{where}: {word} {schema[word]} doesn't hold of {value!r}" for word, test in tests.items() if word in schema and not test(schema[word])]
    for place, item in enumerate(value) if isinstance(value, list) else ():
        faults += faults_of(document, schema.get("items", {}), item, f"{where}[{place}]", others_pass)
    for name, item in value.items() if isinstance(value, dict) else ():
        its_schema = schema.get("properties", {}).get(name, schema.get("additionalProperties"))
        if isinstance(its_schema, dict):
            faults += faults_of(document, its_schema, item, f"{where}.{name}", others_pass)
        elif not others_pass:
            faults.append(f"{where}: a member {name} that isn't named")
    return faults


def fits_text(document, schema, text):
    """Whether the text of a parameter is of its schema."""
    if resolve(document, schema).get("type") == "integer":
        return bool(re.fullmatch("0|[1-9][0-9]*", text)) and not faults_of(document, schema, int(text))
    return not faults_of(document, schema, text.split(",") if schema.get("type") == "array" else text)


def text_of(example):
    """How the example of a parameter is sent: a list with commas."""
    return ",".join(example) if isinstance(example, list) else str(example)


def probes(schema, example):
    """Texts of which some are right and some are wrong."""
    if schema.get("type") == "integer":
        return [str(it + by) for it in (schema["minimum"], schema["maximum"]) for by in (-1, 0, 1)] + ["01", "+1", "1.0", "1e0", "x", "", "1 "]
    if schema.get("type") == "array":
        one = example.split(",")[0]
        return [",".join([one] * count) for count in (1, 2, schema["maxItems"], schema["maxItems"] + 1)] + [
            form.format(it) for it in probes({}, one) for form in ("{}," + one, one + ",{}")] + ["", ",", one + ",", "," + one, one + ",," + one, one + ", " + one, one + ";" + one]
    if "enum" in schema:
        return schema["enum"] + [schema["enum"][0].upper(), "", "1"]
    if re.fullmatch("[0-9a-f-]{36}", example):
        bare, nobody = example.replace("-", ""), "ffffffff-ffff-4fff-bfff-ffffffffffff"
        forms = [example, example.upper(), bare, "{" + example + "}", "urn:uuid:" + example, "URN:uuid:" + example, nobody, example[:-3] + "107"]
        return forms + [example[:-1], example + "0", example[:-1] + "g", example.replace("-", "_"), "{" + example, "{" + bare + "}", "urn:uuid:" + bare, "x"]
    return [example, "station", "tall", "plan", "a" * 64, "a" * 65, "Nolift", "a.b", "", "bicycle", "ä"]


def request(method, target, fields=(), body=""):
    lines = [f"{method.upper()} {target} HTTP/1.1", "host: a", *fields] + ([f"content-length: {len(body.encode())}"] if body else [])
    return "\r\n".join(lines + ["", body]).encode()


def targets(document, path, parameters):
    """Targets with whether each is of its form: all parameters right, then one of them otherwise."""
    def target(**others):
        values = {it["name"]: [text_of(it["example"])] if it["required"] else [] for it in parameters} | others
        at = re.sub(r"{(\w+)}", lambda found: values[found[1]][0], path)
        pairs = [f"{it['name']}={quote(value, safe='')}" for it in parameters if it["in"] == "query" for value in values[it["name"]]]
        return at + "?" + "&".join(pairs + ["nobodys=1", "nobodys=2"])

    yield target(), True
    for it in parameters:
        for text in probes(resolve(document, it["schema"]), text_of(it["example"])):
            if it["in"] == "query" or re.fullmatch("[!-~]+", text):
                yield target(**{it["name"]: [text]}), fits_text(document, it["schema"], text)
        if it["in"] == "query":
            yield target(**{it["name"]: []}), not it["required"]
            yield target(**{it["name"]: [text_of(it["example"])] * 2}), False


def bodies(document, operation):
    """Bodies with whether each is of its form."""
    content = operation["requestBody"]["content"]["application/json"]
    schema, examples = resolve(document, content["schema"]), [it["value"] for it in content["examples"].values()]
    example = examples[0]
    values = [*examples, example | {"nobodys": [1]}, [], 1, "x", None]
    for name, its_schema in schema["properties"].items():
        values.append({key: value for key, value in example.items() if key != name})
        others = probes(resolve(document, its_schema), example[name]) if isinstance(example.get(name), str) else ["true"]
        if "items" in its_schema:
            item = next(it[name][0] for it in examples if name in it)
            others += [[item] * count for count in (1, 2, its_schema["maxItems"], its_schema["maxItems"] + 1)]
            others += [[item, other] for other in (None, 1, True, [], {}, "", "nobodys", item.upper())]
        values += [example | {name: other} for other in [None, 1, True, False, [], {}] + others]
    yield from ((compact(value), not faults_of(document, schema, value, others_pass=True)) for value in values)
    yield from ((text, False) for text in ("", "{", compact(example) + "x", "\ufeff" + compact(example)))


def run_session(program, venue, sent):
    """What a session over a folder writes: without a journal, or with its base's own, whose file may not grow. The signal of that limit is passed over, as Python
    does."""
    base, folder = os.path.split(venue)
    words, path = [program, "session", base, folder], os.path.join(base, JOURNAL + ".journal")
    if not os.path.exists(path):
        return subprocess.run(words, input=sent, capture_output=True, timeout=50).stdout

    def limit():
        resource.setrlimit(resource.RLIMIT_FSIZE, (os.path.getsize(path),) * 2)
    return subprocess.run([*words, JOURNAL], input=sent, capture_output=True, timeout=50, preexec_fn=limit, restore_signals=False).stdout


def replies(program, venue, requests):
    """The replies to requests of one session, as (status, fields, body)."""
    rest = run_session(program, venue, b"".join(requests))
    count = 0
    while rest:
        head, _, rest = rest.partition(b"\r\n\r\n")
        first, *lines = head.decode().split("\r\n")
        fields = dict(line.split(": ", 1) for line in lines)
        length, count = int(fields["content-length"]), count + 1
        yield first.split(" ")[1], fields, rest[:length].decode()
        rest = rest[length:]
    need(count == len(requests), f"{count} replies to {len(requests)} requests, the first of which is {requests[0][:80]!r}")


def serve(document, program, venue, responses, cases, closes=False):
    """Sends requests in one session, each with a test of the status, and judges the replies by what is listed; the pairs of status and error."""
    global judged
    seen = set()
    for (sent, wanted), (status, fields, text) in zip(cases, list(replies(program, venue, [it for it, _ in cases]))):
        where, body, listed = f"{sent[:110]!r}: {status} {text[:110]}", json.loads(text), resolve(document, responses.get(status, {}))
        seen.add((status, body.get("error")))
        judged += 1
        need(wanted(status), f"{where}: another status is wanted")
        need(fields["content-type"] == "application/json" and ("connection" in fields) == closes, f"{where}: other fields than are wanted")
        if "result" in body or "category" in body:
            need(bool({"potentials", "reached"} & set(body)) == (b"certificate=yes" in sent), f"{where}: a certificate where none was asked for, or none")
        if need(listed, f"{where}: the status isn't listed"):
            allow = listed.get("headers", {}).get("allow", {"schema": {"const": None}})["schema"]
            faults = faults_of(document, listed["content"]["application/json"]["schema"], body) + faults_of(document, allow, fields.get("allow"), "allow")
            need(not faults, f"{where}: {faults}")
    return seen


def listed_in(document, responses):
    """The pairs of status and error that are listed."""
    for status, response in responses.items():
        schema = resolve(document, response)["content"]["application/json"]["schema"]
        for one in schema.get("oneOf", [schema]):
            error = resolve(document, one)["properties"].get("error", {"const": None})
            yield from ((status, name) for name in error.get("enum", [error.get("const")]))


def check_operation(document, program, venues, path, method, operation, parameters):
    responses, key = operation["responses"], [KEY] if method == "post" else []
    forms = [(request("post", path, key, body), right) for body, right in bodies(document, operation)] if key else [
        (request("get", target), right) for target, right in targets(document, path, parameters)]
    cases = [(sent, lambda status, right=right: (status != "400") == right) for sent, right in forms]
    seen = serve(document, program, venues[0], responses, cases)
    if key:
        for venue in venues[1:]:
            seen |= serve(document, program, venue, responses, cases)
        cases = [(request("post", path, fields), lambda status: status == "403") for fields in ([], [KEY + "x"], [KEY, KEY])]
        seen |= serve(document, program, venues[0], responses, cases)
    for fields, wanted in ((["host: b"], "400"), (["content-length: 65537"], "413"), (["transfer-encoding: chunked"], "501"), (["x: a"] * 64, "431")):
        seen |= serve(document, program, venues[0], responses, [(request(method, path, key + fields), lambda status: status == wanted)], closes=True)
    unseen = set(listed_in(document, responses)) - seen - {("503", "want_of_memory")}
    need(not unseen, f"{operation['operationId']}: listed, and no reply was {sorted(unseen, key=str)}")


def serve_paths(document, program, venue, schemas, requests):
    """Sends requests of several paths in one session. Each reply is of one of these schemas."""
    listed = {"oneOf": [{"$ref": f"#/components/schemas/{name}"} for name in schemas]}
    serve(document, program, venue, {"200": {"content": {"application/json": {"schema": listed}}}}, [(it, lambda status: status == "200") for it in requests])


def closing(**body):
    return request("post", "/v1/closures", [KEY], compact({"closed": True} | body))


def check_closed(document, program, venue):
    """What is closed, for some and then for all: as it is answered, as a list, and as a place."""
    lift, ramp = ("00000000-0000-4000-8000-000000000" + digits for digits in ("301", "024"))
    asked = [request("get", "/v1/closures"), request("get", f"/v1/place/{lift}")]
    sent = [it for change in (closing(feature=lift, profiles=["wheelchair"]), closing(feature=ramp)) for it in [change, *asked]]
    serve_paths(document, program, venue, ("ClosureDone", "Closures", "Place"), sent)


def check_corners(document, program):
    """Ways round walls: steps and potentials with corners, and corners that are reached, where a door is closed and where nothing is of a category."""
    start, end, stop, door = ("00000000-0000-4000-8000-000000000" + digits for digits in ("053", "055", "051", "105"))
    route = request("get", f"/v1/route?from={start}&to={end}&profile=walk&certificate=yes")
    tour = request("get", f"/v1/tour?from={start}&to={end}&stops={stop}&profile=walk")
    nearest = request("get", f"/v1/nearest?from={start}&category=restroom&profile=walk&certificate=yes")
    venue = os.path.join(EXAMPLES, "walls", "concourse")
    serve_paths(document, program, venue, ("ClosureDone", "Route", "NoRoute", "Tour", "Nearest"), [route, tour, nearest, closing(feature=door), route])


def check_others(document, program, venue):
    """Other methods and other paths."""
    for path, item in document["paths"].items():
        has = [method.upper() for method in ("get", "post") if method in item]
        allowed = {**resolve(document, item["x-other-methods"]), "headers": {"allow": {"schema": {"const": ", ".join(has)}}}}
        sent = [request("get", re.sub(r"{\w+}", "x", path)).replace(b"GET", method.encode(), 1) for method in ("GET", "POST", "PUT", "OPTIONS", "get") if method not in has]
        serve(document, program, venue, {"405": allowed}, [(it, lambda status: status == "405") for it in sent])
    paths = ("/", "/v2", "/v1/version/", "/V1/version", "/v1/place/", "/v1/place/a/b", "*", "http://a/v1/version")
    serve(document, program, venue, {"404": document["x-other-paths"]}, [(request("get", path), lambda status: status == "404") for path in paths])


def make_base(folder, name, more):
    """The example folders, with a file in the place of a folder, and something more in the settings."""
    base = shutil.copytree(EXAMPLES, os.path.join(folder, name), ignore=shutil.ignore_patterns("sessions", "*.py", "*.sh"))
    for file, text in (("plan", "A file where a folder should be.\n"), ("venue.toml", more)):
        with open(os.path.join(base, file), "a", encoding="utf-8") as it:
            it.write(text)
    return base


def make_full(program, folder):
    """The same base with a journal, in which a history has begun."""
    base = make_base(folder, JOURNAL, "")
    with open(os.path.join(base, JOURNAL + ".journal"), "wb"):
        pass
    subprocess.run([program, "session", base, "station", JOURNAL], input=b"", timeout=50, check=True)
    return base


def main():
    program = sys.argv[1] if len(sys.argv) > 1 else os.path.join(TOP, "venue")
    with open(os.path.join(TOP, "docs", "openapi.json"), encoding="utf-8") as file:
        document = json.load(file)
    check_references(document)
    if not mistakes:
        for name, schema in document["components"]["schemas"].items():
            check_schema(schema, name)
        check_examples(document)
        check_operations(document)
        used.clear()
        with tempfile.TemporaryDirectory() as folder:
            bases = [make_base(folder, "any", ""), make_base(folder, "last", "\nlast_version = 1\n"), make_full(program, folder)]
            venues = [os.path.join(base, "station") for base in bases]
            for path, method, operation, parameters in operations(document):
                check_operation(document, program, venues, path, method, operation, parameters)
            check_closed(document, program, venues[0])
            check_corners(document, program)
            check_others(document, program, venues[0])
        schemas = {name: it for name, it in document["components"]["schemas"].items() if name not in NO_REPLY}
        listed = {*schemas, *(f"{name}.{member}" for name, it in schemas.items() for member in it.get("properties", {}))}
        need(listed <= used, f"no reply was, or had, {sorted(listed - used)}")
    for mistake in mistakes:
        print(mistake, file=sys.stderr)
    print(f"openapi_replies: {judged} replies, {len(mistakes)} mistakes")
    return 1 if mistakes else 0


sys.exit(main())
