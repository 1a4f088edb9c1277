"""A signed root and the zones below it, as files in master format that an authoritative server takes."""
from .library import done

ADDRESS = "127.0.0.1"  # of the authoritative server
SIGNED = {"plain.": (), "hashed.": ("-3", "-", "-H", "0"), "optout.": ("-3", "-", "-H", "0", "-A")}
UNSIGNED = "open."
RSA = "rsa."  # a zone of its own, whose proofs of denial don't fit 1,232 octets
ORIGINS = (*SIGNED, UNSIGNED)
HOSTS = [f"n{i:06d} A 10.0.{i >> 8}.{i & 255}" for i in range(200)]
CUT = "cut NS ns.cut", "ns.cut A 192.0.2.8"
ECDSA_KEY, RSA_KEY = ("-a", "ECDSAP256SHA256"), ("-a", "RSASHA256", "-b", "2048")
BELOW = ['*.w TXT "made by the wildcard"', "alias CNAME n000001", "deep.down A 192.0.2.7", *CUT]

def zone_text(origin, lines):
    head = f"$ORIGIN {origin}\n$TTL 3600\n@ SOA ns hostmaster 1 3600 600 86400 300\n@ NS ns\nns A {ADDRESS}\n"
    return head + "\n".join(lines) + "\n"

def write_zone(folder, origin, lines): (folder / f"{origin}zone").write_text(zone_text(origin, lines))

def signed(folder, origin, lines, *how, key=ECDSA_KEY):
    """Signs a zone in place, and gives its DS."""
    write_zone(folder, origin, lines)
    path = folder / f"{origin}zone"
    key = done("dnssec-keygen", "-q", *key, "-f", "KSK", "-K", folder, origin).strip()
    with open(path, "a") as zone: zone.write((folder / f"{key}.key").read_text())
    done("dnssec-signzone", "-z", "-P", "-q", "-K", folder, "-o", origin, "-f", path, *how, path, key, cwd=folder)
    return done("dnssec-dsfromkey", "-2", folder / f"{key}.key").strip()

def delegation(origin): return f"{origin} NS ns.{origin}\nns.{origin} A {ADDRESS}"

def rsa_zone(folder, *more):
    """Writes the RSA zone, with the hosts and further lines, and gives what delegates it."""
    return [delegation(RSA), signed(folder, RSA, [*HOSTS, *more], "-3", "-", "-H", "0", key=RSA_KEY)]

def tree(folder, *more, below=()):
    """Writes the root and the zones below it, each with the hosts and further lines, and gives the root's DS.

    What else is below it is delegated by lines."""
    lines = [*HOSTS, *BELOW, *more]
    delegations = [signed(folder, origin, lines, *how) for origin, how in SIGNED.items()]
    write_zone(folder, UNSIGNED, lines)
    return signed(folder, ".", [*map(delegation, ORIGINS), *delegations, *below])
