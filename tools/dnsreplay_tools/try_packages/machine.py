"""A throwaway copy of this machine: its root below an overlay that nobody else sees, and a resolver."""
import contextlib
from ..library import done
from ..signed_zones import delegation, signed
from ..try_forward.lab import Servers
from ..try_forward.resolvers import STUB, unbound

ZONES = ".", "org."
AUTHORITY, RESOLVER = 5354, 5353
SECONDS = 60
# What any installation leaves, and what the tries leave themselves.
EXCUSED = "var/log/", "var/cache/", "var/lib/apt/", "var/lib/dpkg/", "tmp/", "dev/", "proc/", "sys/", "run/"
ISOLATED = "unshare", "--pid", "--fork", "--kill-child", "--mount-proc"
APT = "apt-get -y -q --no-install-recommends --allow-downgrades -o APT::Sandbox::User=root"

class Machine(contextlib.ExitStack):
    """The copy's root while it is entered; `upper` has what differs from this machine's."""
    def __init__(self, folder):
        super().__init__()
        self.folder, self.root, self.upper = folder, folder / "root", folder / "upper"
        self.ports = iter((RESOLVER,))
        (folder / "zones").mkdir()
        delegated = [delegation("org."), signed(folder / "zones", "org.", ["www A 192.0.2.1"])]
        self.anchor = signed(folder / "zones", ".", delegated)

    def port(self): return next(self.ports)

    def __enter__(self):
        super().__enter__()
        for name in ("root", "upper", "work"): (self.folder / name).mkdir()
        options = f"lowerdir=/,upperdir={self.upper},workdir={self.folder / 'work'}"
        done("mount", "-t", "overlay", "overlay", "-o", options, self.root)
        self.callback(done, "umount", "-R", "-l", self.root)
        for name in ("dev", "proc"): done("mount", "--rbind", "--make-rslave", f"/{name}", self.root / name)
        self.servers = self.enter_context(Servers(ZonesOf(self), self.folder / "servers"))
        self.servers.knot(AUTHORITY, ZONES)
        stubs = "".join(STUB.format(zone=each, authority=AUTHORITY) for each in ZONES)
        unbound(self.servers, zones=stubs)
        return self

    def shell(self, text):
        """What commands write; their processes are ended with them."""
        script = f"set -eo pipefail\n{text}"
        return self.servers.done("timeout", SECONDS, "chroot", self.root, *ISOLATED, "bash", "-c", script)

    def apt(self, verb, *words):
        return self.shell(f"export DEBIAN_FRONTEND=noninteractive; {APT} {verb} {' '.join(words)}")

    def given(self, files):
        """The paths of files that are copied there."""
        for each in files: (self.root / "tmp" / each.name).write_bytes(each.read_bytes())
        return [f"/tmp/{each.name}" for each in files]

    def path(self, file): return f"/{file.relative_to(self.root)}"
    def has(self, path): return (self.root / path).is_symlink() or (self.root / path).exists()
    def read(self, path): return (self.root / path).read_text()
    def write(self, path, text): (self.root / path).write_text(text)

    def left(self):
        """Files of the copy that this machine hasn't."""
        for each in sorted(self.upper.rglob("*")):
            path = str(each.relative_to(self.upper))
            is_gone = each.is_char_device()  # an overlay's word for a file that was removed
            if each.is_dir() or is_gone or path.startswith(EXCUSED): continue
            with contextlib.suppress(OSError):
                if (self.folder.parents[-1] / path).lstat(): continue
            yield path

class ZonesOf:
    """What `Servers` asks of a lab."""
    def __init__(self, machine):
        self.folder, self.anchor = machine.folder / "zones", machine.anchor
        self.authority, self.port = AUTHORITY, machine.port
