"""Reports as SARIF 2.1.0, with the paths as code flows."""

import hashlib
import pathlib
from urllib.parse import quote

from .reports import Place, report_of, text_of
from .version import SHARE, version
from .wording import cause_of, described, exceeded, sink_of, stable_name

SCHEMA = "https://json.schemastore.org/sarif-2.1.0.json"
# the page that says what each lattice and prelude finds
INFORMATION = pathlib.Path(SHARE, "README.md").as_uri()


def location(place: Place, message=None):
    """A place. SARIF has no columns in bytes; those of a line of ASCII are the same in all ways to count."""
    raw = place.file.encode("latin-1")
    uri = ("file://" if raw.startswith(b"/") else "") + quote(raw)
    made = {
        "physicalLocation": {
            "artifactLocation": {"uri": uri},
            "region": {"startLine": place.line, "startColumn": place.column},
        }
    }
    if message is not None:
        made["message"] = {"text": text_of(message)}
    return made


def place_of_error(failure, steps):
    """The call whose argument exceeds the bound, where the bound is that of a parameter of the function that is called; else the bound."""
    if len(steps) >= 2 and steps[-1][0].kind == "bound" and steps[-2][0].kind == "enter":
        return steps[-2][0].place
    return failure.place


def sentence_of(failure):
    """What is wrong, with the name of what is reached."""
    sink = sink_of(failure)
    if sink is None:
        return f"{failure.element} exceeds {failure.bound}"
    return exceeded(failure, described(sink))


def fingerprint_of(failure, at):
    """The same for an error whose lines move: of the file, the cause and the bound."""
    parts = (at.file, failure.element, stable_name(cause_of(failure)), failure.bound, stable_name(sink_of(failure)))
    return hashlib.sha256("\0".join(parts).encode("latin-1")).hexdigest()


def result_of(failure):
    steps = failure.steps()
    at = place_of_error(failure, steps)
    related = [location(failure.place, f"the bound {failure.bound}")]
    if steps:
        related.append(location(steps[0][0].place, f"where {failure.element} comes from"))
    for number, one in enumerate(related):
        one["id"] = number
    return {
        "ruleId": f"{failure.element}-exceeds-{failure.bound}",
        "level": "error",
        "message": {"text": text_of(sentence_of(failure))},
        "locations": [location(at)],
        "relatedLocations": related,
        "partialFingerprints": {"causeAndBound/v1": fingerprint_of(failure, at)},
        "codeFlows": [{"threadFlows": [{"locations": [flow_step(*one) for one in enumerate(steps, 1)]}]}],
    }


def flow_step(order, step_and_level):
    step, level = step_and_level
    return {
        "location": location(step.place, f"{step.number} {step.kind} {step.text}"),
        "nestingLevel": level,
        "executionOrder": order,
    }


def invocation_of(report):
    """How a run of cqual went, as far as its report says it."""
    if report.answer in ("accepted", "rejected"):
        return {"executionSuccessful": True}
    said = {"level": "error", "message": {"text": text_of(report.first) or "no report"}}
    if report.place is not None:
        said["locations"] = [location(report.place)]
    return {"executionSuccessful": False, "toolExecutionNotifications": [said]}


def numbered(results):
    """The results with how often their fingerprint came before, so that two of one cause and bound are two."""
    seen = {}
    for one in results:
        prints = one["partialFingerprints"]
        count = seen[prints["causeAndBound/v1"]] = seen.get(prints["causeAndBound/v1"], 0) + 1
        prints["causeAndBound/v1"] += f":{count}"
    return results


def rules_of(reports):
    """The rules that results name, each with what it says."""
    found = {(one.element, one.bound) for report in reports for one in report.failures}
    return [
        {"id": f"{element}-exceeds-{bound}", "shortDescription": {"text": f"{element} exceeds {bound}"}}
        for element, bound in sorted(found)
    ]


def sarif_of(texts):
    """The SARIF of reports, in one run with an invocation for each, and whether each was a report."""
    reports = [report_of(text) for text in texts]
    rules = rules_of(reports)
    index = {rule["id"]: number for number, rule in enumerate(rules)}
    results = numbered([result_of(failure) for report in reports for failure in report.failures])
    for one in results:
        one["ruleIndex"] = index[one["ruleId"]]
    run = {
        "tool": {"driver": {"name": "cqual", "version": version(), "informationUri": INFORMATION, "rules": rules}},
        "columnKind": "unicodeCodePoints",
        "invocations": [invocation_of(report) for report in reports],
        "results": results,
    }
    return {"$schema": SCHEMA, "version": "2.1.0", "runs": [run]}, all(one["executionSuccessful"] for one in run["invocations"])
