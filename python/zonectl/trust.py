"""Whom TLS trusts.

TLS is 1.3 for transfers and verifies the server by default: the system's certificates or those of a file, and the server's name.
"""
from __future__ import annotations

from collections.abc import Callable
from dataclasses import dataclass
from typing import TYPE_CHECKING

from .errors import Usage, about

if TYPE_CHECKING:
    import ssl


@dataclass(frozen=True)
class Trust:
    """How a server proves who it is, and this side too."""

    ca: str | None = None  # certificates to trust instead of the system's, a file in PEM
    name: str | None = None  # the name in the certificate, if it isn't the host's
    client: str | None = None  # a certificate and its key for servers that ask for one, a file in PEM
    verifies: bool = True

    def context(self, protocol: str) -> ssl.SSLContext:
        """Returns how TLS is spoken for a protocol of ALPN: `dot` (RFC 9103 section 7) or `http/1.1`.

        Whether the server says so too isn't asked: NSD 4.6 doesn't. Raises Usage where a file can't be used.
        """
        import ssl

        context = ssl.SSLContext(ssl.PROTOCOL_TLS_CLIENT)
        context.minimum_version = ssl.TLSVersion.TLSv1_3 if protocol == "dot" else ssl.TLSVersion.TLSv1_2
        context.set_alpn_protocols([protocol])
        if not self.verifies:
            context.check_hostname, context.verify_mode = False, ssl.CERT_NONE
        elif self.ca:
            _load(context.load_verify_locations, self.ca, "certificates")
        else:
            context.load_default_certs()
        if self.client:
            _load(lambda path: context.load_cert_chain(path, password=lambda: ""), self.client, "a client certificate and its key")
        return context


def _load(load: Callable[[str], object], path: str, what: str) -> None:
    import ssl

    with about(path):
        try:
            load(path)
        except ssl.SSLError:
            raise Usage(f"it doesn't hold {what} in PEM") from None
