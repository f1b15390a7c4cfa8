"""The image for containers: the program, its licence and nothing else, as an archive of the layout that OCI defines."""

import hashlib
import json
from datetime import datetime, timezone
from typing import Any

from . import layout
from .entries import PROGRAM_MODE, Entry, folder, tar, tar_gz, taken

# Who runs the program there. No user of the image has a name, since it has no file of names.
USER = 65532
SOCKET = "/run/bulkhead/share.sock"
SETTINGS = "/etc/bulkhead/settings.toml"
ENTRY = ["/bulkhead"]
COMMAND = ["share", SETTINGS, "--socket", SOCKET, "--forever", "--explain"]


class Blobs:
    """The blobs of a layout, each by the sum of its bytes."""

    def __init__(self) -> None:
        self.entries: list[Entry] = []

    def add(self, kind: str, content: bytes) -> dict[str, Any]:
        """Keeps a blob, and returns how it is named by others."""
        sum_of = hashlib.sha256(content).hexdigest()
        self.entries.append(Entry(f"blobs/sha256/{sum_of}", content))
        return {"mediaType": f"application/vnd.oci.image.{kind}", "digest": f"sha256:{sum_of}", "size": len(content)}


def as_json(value: object) -> bytes:
    """A value as JSON, the same each time."""
    return json.dumps(value, separators=(",", ":"), sort_keys=True).encode()


def root(of: layout.Things) -> list[Entry]:
    """The files of the image."""
    return [
        Entry("bulkhead", of.built.program.read_bytes(), PROGRAM_MODE),
        taken("LICENSE", of.top / "LICENSE"),
        Entry("etc/bulkhead/settings.toml", (of.top / "packaging/debian/settings.toml").read_bytes()),
        folder("run/bulkhead", 0o700, USER),
    ]


def configuration(of: layout.Things, layer: bytes) -> dict[str, Any]:
    """What is run in the image, and by whom."""
    moment = datetime.fromtimestamp(of.epoch, timezone.utc).strftime("%Y-%m-%dT%H:%M:%SZ")
    return {
        "architecture": "amd64",
        "os": "linux",
        "created": moment,
        "config": {
            "User": f"{USER}:{USER}",
            "Entrypoint": ENTRY,
            "Cmd": COMMAND,
            "WorkingDir": "/",
            "Labels": labels(of),
        },
        "rootfs": {"type": "layers", "diff_ids": [f"sha256:{hashlib.sha256(layer).hexdigest()}"]},
        "history": [{"created": moment, "created_by": "bulkhead"}],
    }


def labels(of: layout.Things) -> dict[str, str]:
    """What the image says of itself."""
    return {
        "org.opencontainers.image.title": "bulkhead",
        "org.opencontainers.image.version": of.version,
        "org.opencontainers.image.licenses": "Apache-2.0",
    }


def made(of: layout.Things) -> dict[str, bytes]:
    """The image, by its name."""
    files = root(of)
    blobs = Blobs()
    layer = blobs.add("layer.v1.tar+gzip", tar_gz(files, of.epoch))
    config = blobs.add("config.v1+json", as_json(configuration(of, tar(files, of.epoch))))
    kinds = "application/vnd.oci.image."
    manifest = {"schemaVersion": 2, "mediaType": f"{kinds}manifest.v1+json", "config": config, "layers": [layer]}
    named = {**blobs.add("manifest.v1+json", as_json(manifest)), "annotations": {"org.opencontainers.image.ref.name": of.version}}
    index = {"schemaVersion": 2, "mediaType": f"{kinds}index.v1+json", "manifests": [named]}
    heads = [Entry("oci-layout", as_json({"imageLayoutVersion": "1.0.0"})), Entry("index.json", as_json(index))]
    return {f"bulkhead-{of.version}-oci-amd64.tar": tar([*heads, *blobs.entries], of.epoch)}
