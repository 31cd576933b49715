"""Manifests, and registries that hold them, in the second program. Digests are of `hashlib`, values of
manifests of `json`.
"""
import hashlib
import json
import re

IMAGE = "application/vnd.oci.image.manifest.v1+json"
INDEX = "application/vnd.oci.image.index.v1+json"
DOCKER_IMAGE = "application/vnd.docker.distribution.manifest.v2+json"
DOCKER_INDEX = "application/vnd.docker.distribution.manifest.list.v2+json"
CONFIG = "application/vnd.oci.image.config.v1+json"
LAYER = "application/vnd.oci.image.layer.v1.tar"
FOREIGN = "application/vnd.docker.image.rootfs.foreign.diff.tar.gzip"
MANIFEST_LIMIT = 4194304
CHILD_LIMIT = 4096


def plain(data):
    """Bytes as they are printed: what is no sign of ASCII, and the sign `%`, is escaped."""
    return "".join(chr(b) if 32 <= b < 127 and b != 37 else "%%%02X" % b for b in data)


# ---- manifests


def digest_of(data):
    return "sha256:" + hashlib.sha256(data).hexdigest()


def descriptor(media, data):
    return '{"mediaType":"%s","digest":"%s","size":%d}' % (media, digest_of(data), len(data))


def image(layers):
    parts = ",".join(descriptor(LAYER, layer) for layer in layers)
    text = '{"schemaVersion":2,"mediaType":"%s","config":%s,"layers":[%s]}'
    return (text % (IMAGE, descriptor(CONFIG, b"{}"), parts)).encode()


def index(children):
    parts = ",".join(descriptor(media, data) for media, data in children)
    return ('{"schemaVersion":2,"mediaType":"%s","manifests":[%s]}' % (INDEX, parts)).encode("latin-1")


class Refused(Exception):
    """A tag can't be copied; the text is the cause in words."""


def is_descriptor(value):
    return (
        isinstance(value, dict)
        and isinstance(value.get("mediaType"), str)
        and isinstance(value.get("digest"), str)
        and re.fullmatch("sha256:[0-9a-f]{64}", value["digest"]) is not None
        and type(value.get("size")) is int
        and 0 <= value["size"] < 2**63
    )


def children_of(media, data):
    """The children of a manifest, each as its kind, its digest and its size."""
    unreadable = Refused("unreadable " + digest_of(data))
    if len(data) > MANIFEST_LIMIT:
        raise Refused("long %d" % len(data))
    try:
        value = json.loads(data.decode("utf-8"))
    except ValueError:
        raise unreadable
    is_index = media in (INDEX, DOCKER_INDEX)
    if not (is_index or media in (IMAGE, DOCKER_IMAGE)) or not isinstance(value, dict):
        raise unreadable
    version = value.get("schemaVersion")
    if type(version) is not int or version != 2 or value.get("mediaType", media) != media:
        raise unreadable
    if is_index:
        others, listed = ("config", "layers"), value.get("manifests")
    else:
        others, listed = ("manifests",), value.get("layers")
    if any(other in value for other in others) or not isinstance(listed, list):
        raise unreadable
    if is_index:
        children = [("manifest", child) for child in listed]
    elif isinstance(value.get("config"), dict):
        children = [("blob", value["config"])]
        for layer in listed:
            is_foreign = isinstance(layer, dict) and layer.get("mediaType") == FOREIGN
            children.append(("foreign" if is_foreign else "blob", layer))
    else:
        raise unreadable
    if len(children) > CHILD_LIMIT:
        raise Refused("many %d" % len(children))
    if not all(is_descriptor(child) for _, child in children):
        raise unreadable
    return [(kind, child["digest"], child["size"]) for kind, child in children]


# ---- registries


class Repository:
    def __init__(self):
        self.blobs, self.manifests, self.tags = {}, {}, {}


class Registry:
    def __init__(self):
        self.repositories = {}

    def at(self, name):
        """The repository of that name, which is there from now on."""
        return self.repositories.setdefault(name, Repository())

    def blob(self, name, digest):
        held = self.repositories.get(name)
        return held.blobs.get(digest) if held else None

    def manifest(self, name, digest):
        held = self.repositories.get(name)
        return held.manifests.get(digest) if held else None

    def names(self, name, tag):
        """What a tag names, where that manifest is there."""
        held = self.repositories.get(name)
        digest = held.tags.get(tag) if held else None
        return digest if held and digest in held.manifests else None

    def shown(self):
        """The tags that lead to a manifest, in byte order, each with its repository and digest."""
        for name in sorted(self.repositories):
            for tag in sorted(self.repositories[name].tags):
                if self.names(name, tag):
                    yield name, tag, self.names(name, tag)
