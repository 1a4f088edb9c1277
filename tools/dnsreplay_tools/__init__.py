"""Tools for dnsreplay, of which nothing is proved; `../dnsreplay-tools` begins in `commands.py`."""
