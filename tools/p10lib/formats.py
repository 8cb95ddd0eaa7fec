"""Findings as lines of gcc's form, SARIF 2.1.0, GitLab's code quality and JUnit."""
import hashlib
import json
import os
import urllib.parse
from xml.sax.saxutils import escape, quoteattr

from . import VERSION
from .program import readable

SCHEMA = "https://docs.oasis-open.org/sarif/sarif/v2.1.0/errata01/os/schemas/sarif-schema-2.1.0.json"


def shown_code(finding):
    """`S7`, or `rule 6.1` of a violation."""
    return finding.code if finding.refused else "rule " + finding.code


def lines(findings):
    """`FILE:LINE:COLUMN: error: [S7] TEXT` of a refusal, `.. warning: [rule 6.1] TEXT` of a violation, `.. note: TEXT` of a hint."""
    made = []
    for f in findings:
        made.append(f"{f.file}:{f.line}:{f.column}: {'error' if f.refused else 'warning'}: [{shown_code(f)}] {f.text}\n")
        made += [f"{file}:{line}:{column}: note: {text}\n" for file, line, column, text in f.hints]
    return "".join(made)


def _json(value):
    """A value as JSON in UTF-8."""
    return readable(json.dumps(value, indent=1, ensure_ascii=False)) + "\n"


def uri(name):
    """A file's name as a reference: relative names stay relative."""
    path = urllib.parse.quote(os.fsencode(name.replace(os.sep, "/")))
    return "file://" + path if os.path.isabs(name) else path


def fingerprint(finding, seen):
    """A digest that stays when lines above are added: of the file, the code, the line's text and how many were the same before."""
    key = (finding.file, finding.code, finding.text, _line(finding.file, finding.line).strip())
    seen[key] = seen.get(key, 0) + 1
    return hashlib.sha256(repr((key, seen[key])).encode("utf-8", "surrogateescape")).hexdigest()


def _line(file, line):
    """The bytes of a line, empty where it can't be read."""
    try:
        with open(file, "rb") as opened:
            return opened.read().split(b"\n")[line - 1]
    except (OSError, IndexError):
        return b""


def _place(file, line, column):
    """A physical location; p10 counts bytes in a line, SARIF here counts UTF-16 code units."""
    units = len(_line(file, line)[:column - 1].decode("utf-8", "replace").encode("utf-16-le")) // 2
    return {"physicalLocation": {"artifactLocation": {"uri": uri(file)}, "region": {"startLine": line, "startColumn": units + 1}}}


def sarif(findings):
    """A log of one run (SARIF 2.1.0)."""
    codes = list(dict.fromkeys((shown_code(f), f.text) for f in findings))
    ids = list(dict.fromkeys(code for code, _ in codes))
    texts = {code: text for code, text in reversed(codes)}
    rules = [{"id": code, "shortDescription": {"text": texts[code]},
              "defaultConfiguration": {"level": "warning" if code.startswith("rule") else "error"}} for code in ids]
    seen, results = {}, []
    for f in findings:
        result = {"ruleId": shown_code(f), "ruleIndex": ids.index(shown_code(f)), "level": "error" if f.refused else "warning",
                  "message": {"text": f.text}, "locations": [_place(f.file, f.line, f.column)],
                  "partialFingerprints": {"p10/v1": fingerprint(f, seen)}}
        if f.hints:
            result["relatedLocations"] = [dict(_place(file, line, column), message={"text": text}) for file, line, column, text in f.hints]
        results.append(result)
    driver = {"name": "p10-lint", "version": VERSION, "rules": rules}
    run = {"tool": {"driver": driver}, "columnKind": "utf16CodeUnits", "results": results}
    return _json({"$schema": SCHEMA, "version": "2.1.0", "runs": [run]})


def gitlab(findings):
    """A code quality report of GitLab: a list of issues."""
    seen = {}
    return _json([{
        "description": f"{shown_code(f)}: {f.text}", "check_name": shown_code(f), "fingerprint": fingerprint(f, seen),
        "severity": "major" if f.refused else "minor",
        "location": {"path": f.file, "lines": {"begin": f.line}},
    } for f in findings])


def junit(findings, files):
    """A JUnit report: a test suite of one case for each file, which fails where the file has findings."""
    names = list(dict.fromkeys(list(files) + [f.file for f in findings]))
    failed = {f.file for f in findings}
    made = ['<?xml version="1.0" encoding="UTF-8"?>\n',
            f'<testsuites><testsuite name="p10" tests="{len(names)}" failures="{len(failed)}" errors="0">\n']
    for name in names:
        own = [f for f in findings if f.file == name]
        made.append(f'<testcase classname="p10" name={quoteattr(_clean(name))} file={quoteattr(_clean(name))}')
        if own:
            made.append(f"><failure message={quoteattr(f'{len(own)} findings')} type=\"p10\">"
                        f"{escape(_clean(lines(own)))}</failure></testcase>\n")
        else:
            made.append("/>\n")
    return "".join(made) + "</testsuite></testsuites>\n"


def _clean(text):
    """Without the characters that XML has no form for."""
    return "".join(c if c in "\t\n" or " " <= c and c not in "\ufffe\uffff" else "\ufffd" for c in readable(text))
