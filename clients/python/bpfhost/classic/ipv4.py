"""Numbers of IPv4 that translations know: most packets have them."""

from __future__ import annotations

# The EtherType of IPv4 in the headers of Ethernet and similar links.
ETHERTYPE = 0x0800
# The first byte of a header without options, and the length of such a header.
USUAL_BYTE, USUAL_LENGTH = 0x45, 20
