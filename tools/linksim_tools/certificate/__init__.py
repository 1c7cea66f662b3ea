"""Certificates of what a receiver concludes, which tools/verify checks (docs/certificates.md)."""

from linksim_tools.certificate.writing import certificate

__all__ = ["certificate"]
