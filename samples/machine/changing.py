"""What an edited file asks for: the requests that make a package hold what a list says, or why there are none.

Content decides: an item of the file is one that the package holds where their contents are equal, byte by byte. The identity beside it only
chooses among equal contents. A changed item is another item: it goes, and the new one comes under a new identity.
"""

import hashlib
from collections import Counter, namedtuple

from .contents import ENDS, KINDS, fingerprint_of, is_moment, line_of, place_of, size_of
from .held_lists import read_held
from .lists import HEADER, UUID, NoList, spelled_record
from .reasons import GREATEST_CODE, GREATEST_DATA, GREATEST_LABEL, GREATEST_TYPE
from .reasons import MOST_ITEMS, MOST_LINKS, MOST_PACKAGES, MOST_RECEIPTS

Changes = namedtuple("Changes", "requests names")


class Refused(Exception):
    """The argument is what stands behind `refused: `; further arguments are further lines."""


def key_of(content):
    """Two contents are equal where these are."""
    return tuple(content[name] for name in sorted(content) if name in ("kind", "zoom", "column", "row", "x", "y", "code", "text", "data"))


def derived(*words):
    """UUID of version 8 (RFC 9562, 5.8) of the first 16 bytes of a SHA-256."""
    octets = bytearray(hashlib.sha256(" ".join(map(str, words)).encode()).digest()[:16])
    octets[6], octets[8] = octets[6] % 16 + 128, octets[8] % 64 + 128
    digits = octets.hex()
    return "-".join([digits[:8], digits[8:12], digits[12:16], digits[16:20], digits[20:]])


# ---- what can be brought into a package


def same_grid(mine, theirs):
    """Whether a place names the same ground in both frames: places count from the north-west, so the far edges and the zooms may differ."""
    corner = [(each.srs, each.min_x, each.max_y, each.tile_width, each.tile_height) for each in (mine, theirs)]
    if corner[0] != corner[1] or not theirs.is_good():
        return False

    def is_same(width, tiles):
        sides = [(width(each) << each.first_zoom, tiles(each)) for each in (mine, theirs)]
        return sides[0][0] * sides[1][1] == sides[1][0] * sides[0][1]

    across = is_same(lambda frame: frame.max_x - frame.min_x, lambda frame: frame.matrix_width)
    return across and is_same(lambda frame: frame.max_y - frame.min_y, lambda frame: frame.matrix_height)


def unfit_tile(frame, content):
    if not 1 <= size_of(content) <= GREATEST_DATA:
        return "data"
    return None if frame.has_place(*place_of(content)) else "place"


def unfit_media(_, content):
    kind = content["text"].encode()
    if not 1 <= len(kind) <= GREATEST_TYPE or any(not 32 <= byte <= 126 for byte in kind):
        return "text"
    return None if 1 <= size_of(content) <= GREATEST_DATA else "data"


def unfit_row(frame, content):
    if "\n" in content["text"] or size_of(content) > GREATEST_LABEL:
        return "text"
    if not 0 <= content["code"] <= GREATEST_CODE:
        return "code"
    return None if frame.has_point(content["x"], content["y"]) else "point"


UNFIT = {"tile": unfit_tile, "media": unfit_media, "row": unfit_row}


def in_order(held):
    return sorted(held.items, key=lambda key: (KINDS[key[0]], key[1]))


def numbers_of(package):
    """The identity under each number of an export, of media and rows."""
    named = {kind: sorted(identity for identity, item in package.items.items() if item["kind"] == kind) for kind in ("media", "row")}
    return {(kind, number): identity for kind, identities in named.items() for number, identity in enumerate(identities, 1)}


def misplaced(package, content, places, more):
    """Why a tile cannot come to its place: a second one of the file, or another content that stays there."""
    if place_of(content) in places:
        return "twice"
    there = package.places.get(place_of(content))
    is_taken = more and there is not None and package.items[there]["data"] != content["data"]
    return "taken" if is_taken else None


def unfit_items(world, package, held, more):
    """A line for each item that the package cannot hold: its kind, number and a word."""
    exported, places = numbers_of(package) if held.package is not None else {}, set()
    for kind, number in in_order(held):
        content, identity = held.items[kind, number]
        word = UNFIT[kind](world.frame, content)
        if word is None and identity in package.items and exported.get((kind, number), identity) != identity:
            word = "number"
        if kind == "tile" and word is None:
            word = misplaced(package, content, places, more)
            places |= {place_of(content)} if word is None else set()
        if word is not None:
            yield f"{kind} {number} {word}"


def unlisted(held):
    """A line for each record of the file that could not be listed."""
    for number, text in held.bad:
        kind, _, word = text.partition(" ")
        yield f"{kind} {number or 0} {word}"


def check_ends(world, uuid, held, more):
    """That the list is of this package as it is now, or of no package and may only add."""
    if held.package is None and not more or held.package not in (None, uuid):
        raise Refused("package")
    if held.package is not None and held.ticket != world.tickets[uuid]:
        raise Refused(f"stale {world.tickets[uuid]}")


def check_ground(world, held):
    """That points are of the system of the register, and tiles of its grid."""
    kinds = {kind for kind, _ in held.items}
    if held.system not in (None, world.frame.srs) or held.system is None and "row" in kinds:
        raise Refused("system")
    if any(text.startswith("frame") for _, text in held.bad):
        return
    if held.frame is None and "tile" in kinds or held.frame is not None and not same_grid(world.frame, held.frame):
        raise Refused("frame")


# ---- what the items of the file are called


def names_of(package, ticket, held):
    """The identity of each item of the file, and which of them are new."""
    names, taken, left, order = {}, set(), {}, in_order(held)
    for key in order:
        content, identity = held.items[key]
        if identity in package.items and identity not in taken and key_of(package.items[identity]) == key_of(content):
            names[key] = identity
            taken.add(identity)
    for identity in sorted(package.items.keys() - taken, reverse=True):
        left.setdefault(key_of(package.items[identity]), []).append(identity)
    new, copies = [], Counter()
    for key in (key for key in order if key not in names):
        content = held.items[key].content
        alike = left.get(key_of(content))
        if alike:
            names[key] = alike.pop()
        else:
            names[key] = derived("sheetdesk item", package.uuid, ticket, copies[key_of(content)], fingerprint_of(content))
            copies[key_of(content)] += 1
            new.append(key)
    return names, new


# ---- the requests


def ties(command, links):
    ordered = sorted(links, key=lambda link: (KINDS[link[0]], *link[1:]))
    return [{"command": command, "kind": mapping, "identity": base, "other": other} for mapping, base, other in ordered]


def commands(package, held, more, names, new):
    """What goes, then what comes: links, items, items, links."""
    tied = [(mapping, names[ENDS[mapping][0], base], names[ENDS[mapping][1], other]) for mapping, base, other in held.links]
    links = set(tied)
    if len([link for link in tied if link not in package.links]) > len(links - package.links):
        raise Refused("list")
    gone = set() if more else package.items.keys() - set(names.values())
    deletes = sorted(gone, key=lambda identity: (KINDS[package.items[identity]["kind"]], identity))
    adds = sorted(new, key=lambda key: (KINDS[key[0]], names[key]))
    yield from ties("unlink", set() if more else package.links - links)
    yield from ({"command": "delete", "kind": "", "identity": identity} for identity in deletes)
    yield from ({"command": "add", "identity": names[key], **held.items[key].content} for key in adds)
    yield from ties("link", links - package.links)


def check_requests(requests):
    """That no two new items have one identity, which would want two contents of one digest."""
    added = [request["identity"] for request in requests if request["command"] == "add"]
    if len(set(added)) < len(added):
        raise Refused("identity")


def is_past_limits(world, package, requests):
    """Whether the list would leave too much, or there is too much already."""
    of = {command: [] for command in ("unlink", "delete", "add", "link")}
    for request in requests:
        of[request["command"]].append(request)
    gone = {request["identity"] for request in of["delete"]}
    kinds = Counter(item["kind"] for identity, item in package.items.items() if identity not in gone)
    kinds.update(request["kind"] for request in of["add"])
    links = len(package.links) - len(of["unlink"]) + len(of["link"])
    receipts = len(world.receipts) + len(requests)
    in_package = max(kinds.values(), default=0) > MOST_ITEMS or links > MOST_LINKS
    return in_package or len(world.packages) > MOST_PACKAGES or receipts > MOST_RECEIPTS


def check_free(world, package, requests):
    """That nothing is asked for that an item or a request had before, and that the limits are kept.

    An empty list asks for nothing."""
    for request in requests:
        if request["command"] == "add" and request["identity"] in world.used:
            raise Refused(f"identity {request['identity']}")
        if request["request"] in world.kept:
            raise Refused(f"request {request['request']}")
    if requests and is_past_limits(world, package, requests):
        raise Refused("too many")


def changes_for(world, uuid, at, held, more=False):
    """The requests, and what the items of the file are called; Refused where there are none."""
    if uuid not in world.packages:
        raise Refused("no such package")
    package, ticket = world.packages[uuid], world.tickets[uuid]
    check_ends(world, uuid, held, more)
    check_ground(world, held)
    unfit = [*unlisted(held), *unfit_items(world, package, held, more)]
    if unfit:
        raise Refused("items", *unfit)
    names, new = names_of(package, ticket, held)
    requests = [{"package": uuid, "at": at, **each} for each in commands(package, held, more, names, new)]
    for request in requests:
        request["request"] = derived("sheetdesk request", uuid, ticket, line_of(request))
    check_requests(requests)
    check_free(world, package, requests)
    return Changes(requests, names)


def list_of(requests):
    """A request list, as `import` reads it."""
    spelled = [{name: value.hex() if isinstance(value, bytes) else value for name, value in request.items()} for request in requests]
    return "".join(map(spelled_record, [HEADER, *([request.get(name, "") for name in HEADER] for request in spelled)]))


def summary_of(requests):
    """How many requests of each command there are, on a line."""
    counts = Counter(request["command"] for request in requests)
    return ", ".join(f"{counts[command]} {command}s" for command in ("unlink", "delete", "add", "link")) + "\n"


def changes_of_words(world, package, at, list_bytes, more=False):
    """The same of the words of a command line and the text of a list."""
    if UUID.fullmatch(package) is None:
        raise Refused("uuid")
    if not is_moment(at):
        raise Refused("at")
    try:
        held = read_held(list_bytes)
    except NoList as fault:
        if package.lower() not in world.packages:
            raise Refused("no such package") from fault
        raise Refused("list") from fault
    return changes_for(world, package.lower(), at, held, more)
