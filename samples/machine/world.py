"""The world of the second machine: packages that hold items and links, and the receipts of all requests that were accepted."""

from collections import defaultdict, namedtuple

from .contents import item_moved, line_of, link_moved, link_of, place_of
from .cuts import links_among, set_of
from .reasons import refusal_of


class Package:
    def __init__(self, uuid, parent, depth, loan):
        self.uuid = uuid
        self.parent = parent  # None for the archive
        self.depth = depth
        self.loan = loan      # the number of the receipt that made it, 0 for the archive
        self.items = {}       # identity: the request that added it
        self.links = set()    # (mapping, base, other)
        self.places = {}      # (zoom, column, row): the tile there

    def put(self, identity, item):
        self.items[identity] = item
        if item["kind"] == "tile":
            self.places[place_of(item)] = identity

    def take(self, identity):
        item = self.items.pop(identity)
        if item["kind"] == "tile":
            del self.places[place_of(item)]
        return item


class World:
    def __init__(self, archive, frame):
        self.archive = archive
        self.frame = frame
        self.packages = {archive: Package(archive, None, 0, 0)}
        self.receipts = []  # by their numbers, from 1
        self.kept = {}      # the identity of a request: its receipt
        self.used = set()   # each identity that was ever added
        self.lent = set()   # each UUID under which a package was ever lent
        self.tickets = {archive: 0}  # the number of the last receipt that names a package


def sums_of(things):
    """Tiles, media, rows, links and bytes."""
    counts = [sum(thing.kind in kinds for thing in things) for kinds in ({1}, {2}, {3}, {4, 5, 6})]
    return *counts, sum(thing.size for thing in things)


class Receipt(namedtuple("Receipt", "seq request at line source target moved")):
    def sums(self):
        return sums_of(self.moved)


# What an accepted request does. Each answers the source, the target and the things that moved.

def add(world, request):
    world.used.add(request["identity"])
    world.packages[request["package"]].put(request["identity"], request)
    return None, request["package"], [item_moved(request["identity"], request)]


def delete(world, request):
    item = world.packages[request["package"]].take(request["identity"])
    return request["package"], None, [item_moved(request["identity"], item)]


def link(world, request):
    world.packages[request["package"]].links.add(link_of(request))
    return None, request["package"], [link_moved(link_of(request))]


def unlink(world, request):
    world.packages[request["package"]].links.remove(link_of(request))
    return request["package"], None, [link_moved(link_of(request))]


def move(source, target, identities):
    """Takes the items of these identities and all their links from one package to the other; answers what a receipt says of them."""
    links = links_among(source, identities)
    source.links -= links
    target.links |= links
    moved = [link_moved(link) for link in links]
    for identity in identities:
        item = source.take(identity)
        target.put(identity, item)
        moved.append(item_moved(identity, item))
    return source.uuid, target.uuid, moved


def split(world, request):
    parent, going = world.packages[request["package"]], set_of(world, request)
    child = Package(request["other"], parent.uuid, parent.depth + 1, len(world.receipts) + 1)
    world.packages[child.uuid] = child
    world.lent.add(child.uuid)
    return move(parent, child, going)


def merge(world, request):
    child = world.packages.pop(request["package"])
    return move(child, world.packages[request["other"]], set(child.items))


CARRIED_OUT = {"add": add, "delete": delete, "link": link, "unlink": unlink, "split": split, "merge": merge}


def apply(world, request):
    """The reply: a receipt, new or kept, or a refusal."""
    line = line_of(request)
    kept = world.kept.get(request["request"])
    if kept is not None and kept.line == line:
        return kept
    refusal = refusal_of(world, request)
    if refusal is not None:
        return refusal
    source, target, moved = CARRIED_OUT[request["command"]](world, request)
    receipt = Receipt(len(world.receipts) + 1, request["request"], request["at"], line, source, target, sorted(moved))
    world.receipts.append(receipt)
    world.kept[receipt.request] = receipt
    world.tickets.update(dict.fromkeys({source, target} - {None}, receipt.seq))
    return receipt


# A world against its receipts.

def held(package):
    return {item_moved(identity, item) for identity, item in package.items.items()} | {link_moved(link) for link in package.links}


def audit(world):
    """Ends in an AssertionError where a thing stands elsewhere than the receipts say, or what came in less what went out is not what is held."""
    where, sums = {}, defaultdict(lambda: [0] * 5)
    for receipt in world.receipts:
        for thing in receipt.moved:
            assert where.get(thing) == receipt.source, (receipt.seq, thing)
            where[thing] = receipt.target
        for package, sign in ((receipt.source, -1), (receipt.target, 1)):
            sums[package] = [before + sign * number for before, number in zip(sums[package], receipt.sums())]
    for uuid in {*world.packages, *sums} - {None}:
        here = held(world.packages[uuid]) if uuid in world.packages else set()
        assert here == {thing for thing, package in where.items() if package == uuid}, uuid
        assert tuple(sums[uuid]) == sums_of(here), uuid
    for package in world.packages.values():
        assert all({base, other} <= package.items.keys() for _, base, other in package.links), package.uuid
