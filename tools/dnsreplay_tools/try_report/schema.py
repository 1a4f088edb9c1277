"""The JSON of a report beside its schema, and its sums."""
import json, random
from ..report import data
from ..run import ROOT
from ..wire import Fault, check
from . import drawn, written
from .figures import RESOLVER
from .lab import reported

SCHEMA = ROOT / "docs" / "report.schema.json"

def look(told):
    """Raises a fault where a report's JSON isn't as the schema says, or where a sum isn't that of the queries."""
    try:
        import jsonschema
    except ImportError:
        raise Fault("jsonschema is missing: apt-get install python3-jsonschema") from None
    try:
        jsonschema.validate(told, json.loads(SCHEMA.read_text(encoding="utf-8")))
    except jsonschema.ValidationError as why:
        raise Fault(f"{'/'.join(map(str, why.path))}: {why.message}") from why
    sums = {
        "parts": told["answered"]["total"] + told["asked"]["total"] + told["faulty"],
        "kinds": sum(told["answered"]["by"].values()) + sum(told["asked"]["why"].values()) + told["faulty"],
        "zones": sum(zone["answered"] + zone["asked"] for zone in told["zones"]) + told["faulty"],
        "zones' kinds": sum(sum(zone[of].values()) for zone in told["zones"] for of in ("by", "why")) + told["faulty"],
        "times": sum(count for row in told["over_time"]["rows"] for what, count in row.items() if what != "at"),
        "RCODEs": sum(row["queries"] for row in told["rcodes"]) + told["queries"]["without_answer"],
        "carriers": told["queries"]["udp"] + told["queries"]["tcp"],
    }  # fmt: skip
    odd = {name: count for name, count in sums.items() if count != told["queries"]["total"]}
    check(not odd, f"{odd} of {told['queries']['total']:,} queries")

def run(lab, tally):
    for top in (1, 10):
        with tally.check(f"JSON is as its schema says, and its sums are the queries, with --top {top}"):
            rng = random.Random(f"{lab.args.seed} schema")
            file = written.File()
            drawn.write(rng, file, list(drawn.exchanges(rng, 400, 0.1)))
            path = lab.folder / "json"
            path.write_bytes(file.pcap())
            look(json.loads(data.text(reported(lab, [path], RESOLVER), top)))
