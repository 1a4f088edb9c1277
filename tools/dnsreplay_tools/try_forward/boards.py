"""The board and the rules of alerts in docs/, before a Prometheus that read a status file."""
import json, subprocess, time, urllib.error, urllib.parse, urllib.request
from .. import board, run as runs
from ..library import done
from ..wire import Fault, check
from . import resolvers
from .clients import drawn, missing
from .lab import V4
from .load import dnsperf

PROGRAMS = "prometheus", "promtool", "prometheus-node-exporter"
PACKAGES = "prometheus prometheus-node-exporter"
NAMES, RATE, LOADED, SECONDS = 2_000, 500, 15, 60
CONFIGURATION = """\
global: {{scrape_interval: 1s, evaluation_interval: 1s}}
rule_files: ['{rules}']
scrape_configs:
  - {{job_name: node, static_configs: [{{targets: ['127.0.0.1:{exporter}']}}]}}
"""
# What promtool is given of each rule: series by the minute, and after how many minutes it is asked. Each fires by the
# first series and not by the second.
CASES = {
    "DnsreplayGone": (90, {'node_textfile_mtime_seconds{file="/run/dnsreplay/status.prom"}': ("0+0x200", "0+60x200")}),
    "DnsreplayUpstreamSilent": (90, {
        'dnsreplay_failed_total{why="late"}': ("0+60x200", "0+60x200"), "dnsreplay_relayed_total": ("7+0x200", "0+60x200"),
    }),
    "DnsreplayFailures": (90, {
        'dnsreplay_failed_total{why="full"}': ("0+20x200", "0+5x200"), "dnsreplay_answered_total": ("0+500x200",) * 2,
        "dnsreplay_forwarded_total": ("0+400x200",) * 2, "dnsreplay_joined_total": ("0+100x200",) * 2,
    }),
    "DnsreplayFaultsRise": (90, {'dnsreplay_faults_total{call="send"}': ("0+10x60 600+60x140", "0+60x200")}),
    "DnsreplayPlacesFull": (90, {'dnsreplay_failed_total{why="full"}': ("0+1x200", "5+0x200")}),
    "DnsreplayFullAndMissing": (130, {
        "dnsreplay_held_records": ("131072+0x200", "131000+0x200"),
        "dnsreplay_answered_total": ("0+900x80 72000+300x120",) * 2, "dnsreplay_forwarded_total": ("0+100x80 8000+700x120",) * 2,
    }),
}  # fmt: skip

def run(lab, tally):
    runs.need(PACKAGES, *PROGRAMS)
    with tally.check("promtool check rules"): done("promtool", "check", "rules", board.RULES)
    with lab.servers("board") as servers:
        for name in CASES:
            with tally.check(f"{name} fires, and not always"): fires(servers, name)
        forward, port = loaded(lab, servers)
        with tally.check("promtool check metrics, of a status file") as tell: tell(checked(forward))
        with tally.check("each query of the board has a series") as tell: tell(asked(port))
        with tally.check("each rule is evaluated") as tell: tell(evaluated(port))

def fires(servers, name):
    """One test of promtool with both kinds of series, by the label of an instance."""
    minute, series = CASES[name]
    instances = "fires", "rests"
    named = lambda text, instance: (text[:-1] + ", " if text.endswith("}") else text + "{") + f'instance="{instance}"}}'
    given = [
        {"series": named(text, instance), "values": values[at]}
        for text, values in series.items() for at, instance in enumerate(instances)
    ]  # fmt: skip
    rules = servers.folder / f"{name}.rules"
    rules.write_text(stripped(board.RULES.read_text()))
    labels = {"instance": "fires"} | ({"call": "send"} if "call=" in str(series) else {})
    labels |= {"file": "/run/dnsreplay/status.prom"} if "file=" in str(series) else {}
    wanted = [{"eval_time": f"{minute}m", "alertname": name, "exp_alerts": [{"exp_labels": labels}]}]
    test = {"rule_files": [str(rules)], "evaluation_interval": "1m"}
    test["tests"] = [{"interval": "1m", "input_series": given, "alert_rule_test": wanted}]
    path = servers.folder / f"{name}.yml"
    path.write_text(json.dumps(test))  # which is YAML
    done("promtool", "test", "rules", path)

def stripped(text):
    """The rules without annotations, which a test would have to repeat."""
    is_rule = lambda line: line.split(":")[0].strip() not in ("annotations", "summary")
    return "".join(f"{line}\n" for line in filter(is_rule, text.splitlines()))

def loaded(lab, servers):
    """A forwarder under load, with node_exporter over its status and a Prometheus that asks that; its port."""
    forward = servers.forward(resolvers.unbound(servers), workers=2, status="status.prom")
    exporter, port = servers.lab.port(), servers.lab.port()
    words = f"--web.listen-address={V4}:{exporter}", "--collector.disable-defaults", "--collector.meminfo"
    folder = f"--collector.textfile.directory={forward.status.parent}"
    servers.start("exporter", "prometheus-node-exporter", *words, "--collector.textfile", folder)
    configuration = servers.folder / "prometheus.yml"
    configuration.write_text(CONFIGURATION.format(rules=board.RULES, exporter=exporter))
    words = f"--config.file={configuration}", f"--web.listen-address={V4}:{port}"
    process = servers.start("prometheus", "prometheus", *words, f"--storage.tsdb.path={servers.folder / 'series'}")
    servers.up("prometheus", process, lambda: is_ready(port))
    names = servers.folder / "names"
    names.write_text("".join(f"{each.name} A\n" for each in missing(drawn(lab.args.seed, "board"), NAMES)))
    dnsperf(servers, forward.port, names, "-l", LOADED, "-Q", RATE)
    forward.later_counts()
    return forward, port

def is_ready(port):
    try:
        return urllib.request.urlopen(f"http://{V4}:{port}/-/ready", timeout=2).status == 200
    except OSError:
        return False

def checked(forward):
    """What promtool says of a whole status file."""
    with open(forward.status, "rb") as file:
        said = subprocess.run(["promtool", "check", "metrics"], stdin=file, capture_output=True, text=True, check=False)
    check(said.returncode == 0 and not said.stdout + said.stderr, f"{said.stdout}{said.stderr}")
    return f"{len(forward.counts())} samples"

def said(port, path, **fields):
    words = f"?{urllib.parse.urlencode(fields)}" if fields else ""
    try:
        with urllib.request.urlopen(f"http://{V4}:{port}/api/v1/{path}{words}", timeout=10) as reply:
            return json.load(reply)["data"]
    except urllib.error.HTTPError as why:
        raise Fault(f"{fields}: {why.read().decode(errors='replace')[:300]}") from None

def asked(port):
    """Each query has a series, once there are enough samples."""
    end, every = time.monotonic() + SECONDS, list(board.queries())
    while True:
        empty = [each for each in every if not said(port, "query", query=each[1])["result"]]
        if not empty: return f"{len(every)} queries"
        check(time.monotonic() < end, f"no series: {empty}")
        time.sleep(2)

def evaluated(port):
    """Prometheus has evaluated each rule, and had no fault."""
    rules = [rule for group in said(port, "rules")["groups"] for rule in group["rules"]]
    odd = [rule for rule in rules if rule["health"] != "ok"]
    check(rules and not odd, f"{odd}")
    return f"{len(rules)} rules"
