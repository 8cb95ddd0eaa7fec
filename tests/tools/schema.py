"""Whether a value has the form that a JSON schema asks for, with the keywords of draft 7 that the schemas of this folder use.

An unknown keyword is an error, so that none is passed over."""
import json
import re
from pathlib import Path

FOLDER = Path(__file__).resolve().parent / "schemas"
TYPES = {"object": dict, "array": list, "string": str, "boolean": bool, "integer": int, "number": (int, float)}
NOTES = {"$comment", "definitions"}
MEMBERS = {"properties", "patternProperties", "additionalProperties"}
# A reference of RFC 3986: the signs that it may have, `%` before two hexadecimal digits, and no blank.
FORMATS = {"uri-reference": re.compile(r"(?:[A-Za-z0-9._~:/?#\[\]@!$&'()*+,;=-]|%[0-9A-Fa-f]{2})*"), "uri": re.compile(r"[A-Za-z][A-Za-z0-9+.-]*:\S+")}


def read(name):
    """A schema of this folder."""
    return json.loads((FOLDER / f"{name}.json").read_text())


def faults(value, name):
    """What is wrong with a value by the schema of this name, a line each."""
    whole = read(name)
    return list(Schema(whole).faults(value, whole, "$"))


class Schema:
    """A schema with its definitions. Each keyword has a method, which gives what is wrong."""

    def __init__(self, whole):
        self.whole = whole

    def faults(self, value, schema, at):
        """What is wrong with the value at a place."""
        if schema is True:
            return
        if schema is False:
            yield f"{at}: isn't allowed"
            return
        if "$ref" in schema:
            schema = self.whole["definitions"][schema["$ref"].replace("#/definitions/", "")]
        for keyword, wanted in schema.items():
            if keyword not in NOTES | MEMBERS:
                yield from getattr(self, "_" + keyword)(value, wanted, at)
        if isinstance(value, dict):
            yield from self.members(value, schema, at)

    def members(self, value, schema, at):
        """What is wrong with the members: each by its name, by a pattern of names, or as one of the others."""
        for name, member in value.items():
            forms = [schema["properties"][name]] if name in schema.get("properties", {}) else []
            forms += [form for pattern, form in schema.get("patternProperties", {}).items() if re.search(pattern, name)]
            for form in forms or [schema.get("additionalProperties", True)]:
                yield from self.faults(member, form, f"{at}.{name}")

    def _type(self, value, wanted, at):
        names = wanted if isinstance(wanted, list) else [wanted]
        if not any(isinstance(value, TYPES[name]) and (name == "boolean" or not isinstance(value, bool)) for name in names):
            yield f"{at}: {value!r} is no {' or '.join(names)}"

    def _enum(self, value, wanted, at):
        if value not in wanted:
            yield f"{at}: {value!r} is none of {wanted}"

    def _required(self, value, wanted, at):
        if isinstance(value, dict):
            yield from (f"{at}: without {name!r}" for name in wanted if name not in value)

    def _minProperties(self, value, wanted, at):
        if isinstance(value, dict) and len(value) < wanted:
            yield f"{at}: fewer than {wanted} members"

    def _dependencies(self, value, wanted, at):
        for name, others in wanted.items():
            if isinstance(value, dict) and name in value:
                yield from self._required(value, others, at)

    def _items(self, value, wanted, at):
        if isinstance(value, list):
            for i, item in enumerate(value):
                yield from self.faults(item, wanted, f"{at}[{i}]")

    def _minItems(self, value, wanted, at):
        if isinstance(value, list) and len(value) < wanted:
            yield f"{at}: fewer than {wanted} items"

    def _uniqueItems(self, value, wanted, at):
        if isinstance(value, list) and wanted and len({json.dumps(item, sort_keys=True) for item in value}) < len(value):
            yield f"{at}: an item stands twice"

    def _minimum(self, value, wanted, at):
        if isinstance(value, (int, float)) and value < wanted:
            yield f"{at}: {value} is below {wanted}"

    def _maximum(self, value, wanted, at):
        if isinstance(value, (int, float)) and value > wanted:
            yield f"{at}: {value} is above {wanted}"

    def _minLength(self, value, wanted, at):
        if isinstance(value, str) and len(value) < wanted:
            yield f"{at}: too short"

    def _pattern(self, value, wanted, at):
        if isinstance(value, str) and not re.search(wanted, value):
            yield f"{at}: {value!r} isn't of the form {wanted}"

    def _format(self, value, wanted, at):
        if isinstance(value, str) and not FORMATS[wanted].fullmatch(value):
            yield f"{at}: {value!r} is no {wanted}"

    def _anyOf(self, value, wanted, at):
        said = [list(self.faults(value, form, at)) for form in wanted]
        if all(said):
            yield f"{at}: none of {len(wanted)} forms: " + "; ".join(fault for faults in said for fault in faults)

    def _oneOf(self, value, wanted, at):
        fitting = [form for form in wanted if not list(self.faults(value, form, at))]
        if len(fitting) > 1:
            yield f"{at}: {len(fitting)} forms at once"
        elif not fitting:
            yield from self._anyOf(value, wanted, at)
