"""The scripts of the package with the service, as Debian's debhelper has them."""

POSTINST = """\
#!/bin/sh
set -e
case "$1" in configure | abort-upgrade | abort-deconfigure | abort-remove) ;; *) exit 0 ;; esac
deb-systemd-helper unmask dnsreplay.service >/dev/null || true
if deb-systemd-helper --quiet was-enabled dnsreplay.service; then
    deb-systemd-helper enable dnsreplay.service >/dev/null || true
else
    deb-systemd-helper update-state dnsreplay.service >/dev/null || true
fi
# Where no upstream is named yet the service's own condition holds it back.
if [ -d /run/systemd/system ]; then
    systemctl --system daemon-reload >/dev/null || true
    if [ -n "$2" ]; then action=restart; else action=start; fi
    deb-systemd-invoke $action dnsreplay.service >/dev/null || true
fi
"""

PRERM = """\
#!/bin/sh
set -e
if [ "$1" = remove ] && [ -d /run/systemd/system ]; then
    deb-systemd-invoke stop dnsreplay.service >/dev/null || true
fi
"""

POSTRM = """\
#!/bin/sh
set -e
if [ -d /run/systemd/system ]; then systemctl --system daemon-reload >/dev/null || true; fi
if command -v deb-systemd-helper >/dev/null; then
    case "$1" in
        remove) deb-systemd-helper mask dnsreplay.service >/dev/null || true ;;
        purge)
            deb-systemd-helper purge dnsreplay.service >/dev/null || true
            deb-systemd-helper unmask dnsreplay.service >/dev/null || true
            ;;
    esac
fi
"""

SCRIPTS = {"postinst": POSTINST, "prerm": PRERM, "postrm": POSTRM}
