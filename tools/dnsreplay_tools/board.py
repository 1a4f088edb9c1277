"""The board and the rules of alerts in docs/, and the families that the program writes and docs/FORWARD.md tells."""
import json, re
from . import run as runs

DOCS = runs.ROOT / "docs"
BOARD, RULES = DOCS / "grafana.json", DOCS / "alerts.yml"
FAMILY, LABEL = re.compile(r"\bdnsreplay_[a-z_]+"), re.compile(r'\b([a-z]+)=\\?"(\w+)\\?"')
VARIABLES = {"$instance": ".*", "$limit": "131072", "$__rate_interval": "30s"}  # as Grafana would fill them in

def queries():
    """The queries of the board by their panels, with their variables filled in."""
    for panel in json.loads(BOARD.read_text())["panels"]:
        for target in panel["targets"]:
            query = target["expr"]
            for name, value in VARIABLES.items(): query = query.replace(name, value)
            yield panel["title"], query

def used(): return BOARD.read_text() + RULES.read_text()

def sources():
    """The texts of the program."""
    return "".join(each.read_text() for each in sorted((runs.CRATE.parent / "forward_report" / "src").glob("*.rt")))

def written(): return set(re.findall(r'"(dnsreplay_[a-z_]+)"', sources()))

def told():
    """The families of the table in docs/FORWARD.md."""
    lines = (DOCS / "FORWARD.md").read_text().splitlines()
    return {name for line in lines if line.startswith("| `dnsreplay_") for name in FAMILY.findall(line)}
