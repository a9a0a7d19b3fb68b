"""OCI image layouts, made here so that every digest is known before a client is asked."""
import gzip
import hashlib
import io
import json
import os
import tarfile

from tools.shared import digest

MEDIA = "application/vnd.oci.image.{}"


def bytes_of(seed, size):
    """Bytes that do not compress, the same for the same seed."""
    return hashlib.shake_128(seed.encode()).digest(size)


def tar_of(name, content):
    """A tar of one file."""
    tar = io.BytesIO()
    with tarfile.open(fileobj=tar, mode="w") as it:
        entry = tarfile.TarInfo(name)
        entry.size = len(content)
        it.addfile(entry, io.BytesIO(content))
    return tar.getvalue()


def layer_of(name, content):
    """A tar of one file, and the same in gzip."""
    tar = tar_of(name, content)
    return tar, gzip.compress(tar, 1, mtime=0)


class Layout:
    """A layout in a folder, under the tag v1: an image of so many layers for each platform, and an index where there
    are several."""

    def __init__(self, folder, seed, size, platforms=("amd64",), subject=None, layers=1):
        self.folder, self.blobs, self.kinds = folder, {}, {}
        os.makedirs(f"{folder}/blobs/sha256")
        pairs = [layer_of(f"content{number or ''}", bytes_of(f"{seed}{number or ''}", size)) for number in range(layers)]
        images = [self.image(seed, platform, pairs, subject) for platform in platforms]
        whole = images[0] if len(images) == 1 else self.index(images)
        self.digest, self.layer = whole["digest"], digest(pairs[0][1])
        self.write("oci-layout", json.dumps({"imageLayoutVersion": "1.0.0"}).encode())
        named = {**whole, "annotations": {"org.opencontainers.image.ref.name": "v1"}}
        self.write("index.json", json.dumps({"schemaVersion": 2, "manifests": [named]}).encode())

    def write(self, name, body):
        with open(f"{self.folder}/{name}", "wb") as it:
            it.write(body)

    def blob(self, kind, body):
        at = digest(body)
        self.blobs[at], self.kinds[at] = body, kind
        self.write(f"blobs/{at.replace(':', '/')}", body)
        return {"mediaType": MEDIA.format(kind), "digest": at, "size": len(body)}

    def image(self, seed, platform, pairs, subject):
        # (ctr takes a config without a time of making as made by nobody)
        config = {
            "created": "2024-01-01T00:00:00Z",
            "architecture": platform,
            "os": "linux",
            "config": {"Labels": {"seed": seed}},
            "rootfs": {"type": "layers", "diff_ids": [digest(tar) for tar, _ in pairs]},
            "history": [{"created": "2024-01-01T00:00:00Z", "created_by": "check"} for _ in pairs],
        }
        manifest = {
            "schemaVersion": 2,
            "mediaType": MEDIA.format("manifest.v1+json"),
            "config": self.blob("config.v1+json", json.dumps(config).encode()),
            "layers": [self.blob("layer.v1.tar+gzip", packed) for _, packed in pairs],
        }
        if subject:
            manifest["subject"] = {"mediaType": MEDIA.format("manifest.v1+json"), "digest": subject.digest, "size": len(subject.blobs[subject.digest])}
        self.config = manifest["config"]["digest"]
        found = self.blob("manifest.v1+json", json.dumps(manifest).encode())
        return {**found, "platform": {"architecture": platform, "os": "linux"}}

    def index(self, images):
        body = {"schemaVersion": 2, "mediaType": MEDIA.format("index.v1+json"), "manifests": images}
        return self.blob("index.v1+json", json.dumps(body).encode())

    def tar(self):
        """The layout in one file."""
        with tarfile.open(f"{self.folder}.tar", "w") as it:
            it.add(self.folder, arcname=".")
        return f"{self.folder}.tar"


def top_of(folder):
    """The digest of what a layout holds."""
    with open(f"{folder}/index.json", encoding="utf-8") as it:
        return json.load(it)["manifests"][0]["digest"]
