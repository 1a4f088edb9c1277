"""A package of a tree of files: its control files, and `dpkg-deb` over both."""
import gzip, hashlib, os, shutil
from collections import namedtuple
from email.utils import formatdate
from ..library import done

PACKAGE = "Package: {name}\nArchitecture: any\n"
CHANGES = "dnsreplay ({version}) unstable; urgency=medium\n\n  * As built of its sources.\n\n -- {maintainer}  {date}\n"
MAINTAINER = "Packages of dnsreplay", "packages@dnsreplay.invalid"

# its name, files, section and description; further fields of the control file; scripts by name; conffiles; overrides,
# each a tag of lintian with the reason for it
Package = namedtuple("Package", "name tree section about fields scripts conffiles overrides", defaults=({}, {}, (), ()))

class Tree:
    """Files below a folder, as they will lie below the root."""
    def __init__(self, folder): self.folder = folder

    def place(self, path):
        at = self.folder / path.lstrip("/")
        at.parent.mkdir(parents=True, exist_ok=True)
        return at

    def write(self, path, text, mode=0o644):
        at = self.place(path)
        at.write_bytes(text.encode())
        at.chmod(mode)

    def copy(self, source, path, mode=0o644):
        shutil.copyfile(source, self.place(path))
        self.place(path).chmod(mode)

    def link(self, path, to): self.place(path).symlink_to(to)
    def packed(self, path, text): self.place(f"{path}.gz").write_bytes(gzip.compress(text.encode(), 9, mtime=0))

    def files(self):
        """What lies in it but for control files, in order."""
        every = (each for each in sorted(self.folder.rglob("*")) if each.is_file() and not each.is_symlink())
        return [each for each in every if each.relative_to(self.folder).parts[0] != "DEBIAN"]

    def programs(self): return [each for each in self.files() if each.read_bytes()[:4] == b"\x7fELF"]

def maintainer():
    return "{} <{}>".format(os.environ.get("DEBFULLNAME", MAINTAINER[0]), os.environ.get("DEBEMAIL", MAINTAINER[1]))

def architecture(): return done("dpkg", "--print-architecture").strip()
def triplet(): return done("dpkg-architecture", "-qDEB_HOST_MULTIARCH").strip()

def wanted(package, scratch):
    """What dpkg-shlibdeps says that the package's programs and shared objects need."""
    programs = package.tree.programs()
    if not programs: return []
    (scratch / "debian").mkdir(exist_ok=True)
    (scratch / "debian" / "control").write_text(f"Source: dnsreplay\n\n{PACKAGE.format(name=package.name)}")
    said = done("dpkg-shlibdeps", "-O", f"-S{package.tree.folder}", *programs, cwd=scratch)
    return said.partition("=")[2].strip().split(", ")

def control(package, made, depends):
    """The control file. Files are counted in blocks of 1,024 octets, and folders as one, as dpkg-gencontrol does."""
    size = sum(-(-each.stat().st_size // 1024) for each in package.tree.files())
    size += sum(each.is_dir() for each in package.tree.folder.rglob("*"))
    fields = {"Package": package.name, "Source": "dnsreplay", "Version": made.version, "Architecture": architecture()}
    if package.name == "dnsreplay": del fields["Source"]
    fields |= {"Maintainer": maintainer(), "Installed-Size": size, "Depends": ", ".join(depends)}
    fields |= {"Section": package.section, "Priority": "optional"} | {**package.fields, "Depends": fields["Depends"]}
    summary, *rest = package.about.strip().split("\n")
    fields["Description"] = "\n ".join([summary, *(line or "." for line in rest)])
    return "".join(f"{name}: {value}\n" for name, value in fields.items() if value)

def sums(tree):
    summed = ((hashlib.md5(each.read_bytes()).hexdigest(), each.relative_to(tree.folder)) for each in tree.files())
    return "".join(f"{digest}  {path}\n" for digest, path in summed)

def documents(package, made, copyright_text):
    """What each package has below /usr/share."""
    tree, folder = package.tree, f"/usr/share/doc/{package.name}"
    date = formatdate(made.moment).replace("-0000", "+0000")
    tree.packed(f"{folder}/changelog", CHANGES.format(version=made.version, maintainer=maintainer(), date=date))
    tree.write(f"{folder}/copyright", copyright_text)
    lines = [f"# {why}\n{package.name}: {tag}\n" for tag, why in package.overrides]
    if lines: tree.write(f"/usr/share/lintian/overrides/{package.name}", "".join(lines))

def pack(package, made, scratch):
    """Makes the package, and gives its file."""
    tree = package.tree
    depends = [each for each in (package.fields.get("Depends"), *wanted(package, scratch)) if each]
    texts = {"md5sums": sums(tree), "conffiles": "".join(f"{each}\n" for each in package.conffiles)}
    for name, text in (texts | package.scripts).items():
        if text: tree.write(f"DEBIAN/{name}", text, 0o755 if text.startswith("#!") else 0o644)
    tree.write("DEBIAN/control", control(package, made, depends))
    for each in (tree.folder, *tree.folder.rglob("*")):
        if each.is_dir(): each.chmod(0o755)
    epoch = {**os.environ, "SOURCE_DATE_EPOCH": str(made.moment)}
    for each in tree.folder.rglob("*"): os.utime(each, (made.moment, made.moment), follow_symlinks=False)
    done("dpkg-deb", "--root-owner-group", "-Zxz", "--build", tree.folder, scratch / "packed", env=epoch)
    return scratch / "packed" / f"{package.name}_{made.version}_{architecture()}.deb"
