"""Certificates for tests, made by the command openssl."""

from __future__ import annotations

import shutil
import subprocess
from pathlib import Path

OPENSSL = shutil.which("openssl")
_CURVE = ["-newkey", "ec", "-pkeyopt", "ec_paramgen_curve:P-256", "-nodes", "-days", "2"]


def _openssl(*words: str) -> None:
    subprocess.run([str(OPENSSL), *words], check=True, capture_output=True)


def authority(folder: Path, name: str = "authority") -> Path:
    """An authority that signs certificates, and its own certificate."""
    made = folder / f"{name}.pem"
    _openssl("req", "-x509", *_CURVE, "-subj", f"/CN={name}", "-keyout", str(folder / f"{name}.key"), "-out", str(made))
    return made


def signed(folder: Path, name: str, by: Path, addresses: str = "") -> tuple[Path, Path]:
    """A certificate for a name, and its key."""
    made, key, asked = folder / f"{name}.pem", folder / f"{name}.key", folder / f"{name}.csr"
    extra = ["-addext", f"subjectAltName={addresses}"] if addresses else []
    _openssl("req", *_CURVE, *extra, "-subj", f"/CN={name}", "-keyout", str(key), "-out", str(asked))
    words = ["-req", "-in", str(asked), "-CA", str(by), "-CAkey", str(by.with_suffix(".key")), "-CAcreateserial", "-days", "2"]
    _openssl("x509", *words, "-copy_extensions", "copy", "-out", str(made))
    return made, key
