"""The reasons that refuse a request, each as a question of the world and the request: false, true, or what the refusal carries.

The lowest number answers. 24 and 25, want of memory and a store that failed, never come here.
"""

from collections import Counter, namedtuple

from .contents import ENDS, is_moment, link_of, place_of, rect_of, size_of
from .cuts import links_among, set_of, start_of

GREATEST_DEPTH = 4
GREATEST_DATA, GREATEST_TYPE, GREATEST_LABEL, GREATEST_CODE = 1_048_576, 100, 200, 999_999
MOST_ITEMS, MOST_LINKS, MOST_PACKAGES, MOST_RECEIPTS = 1_000_000, 4_000_000, 256, 1_000_000_000

Refusal = namedtuple("Refusal", "number detail")


def adds(request, *kinds):
    return request["command"] == "add" and request["kind"] in kinds


def id_reused(world, request):
    return request["request"] in world.kept


def unknown_package(world, request):
    named = [request["package"], request["other"]] if request["command"] == "merge" else [request["package"]]
    return any(package not in world.packages for package in named)


def package_used(world, request):
    return request["other"] == world.archive or request["other"] in world.lent


def bad_text(world, request):
    if not is_moment(request["at"]):
        return True
    if adds(request, "media"):
        return any(not 32 <= byte <= 126 for byte in request["text"].encode())
    return adds(request, "row") and "\n" in request["text"]


def too_large(world, request):
    if request["kind"] == "row":
        return size_of(request) > GREATEST_LABEL or not 0 <= request["code"] <= GREATEST_CODE
    long_type = request["kind"] == "media" and not 1 <= len(request["text"].encode()) <= GREATEST_TYPE
    return long_type or not 1 <= size_of(request) <= GREATEST_DATA


def identity_used(world, request):
    return request["identity"] in world.used


def unknown_item(world, request):
    named = {request["identity"]} if request["command"] == "delete" else {request["identity"], request["other"]}
    return not named <= world.packages[request["package"]].items.keys()


def wrong_kind(world, request):
    items = world.packages[request["package"]].items
    return (items[request["identity"]]["kind"], items[request["other"]]["kind"]) != ENDS[request["kind"]]


def bad_place(world, request):
    return adds(request, "tile") and not world.frame.has_place(*place_of(request))


def out_of_frame(world, request):
    return adds(request, "row") and not world.frame.has_point(request["x"], request["y"])


def place_taken(world, request):
    return adds(request, "tile") and place_of(request) in world.packages[request["package"]].places


def link_there(world, request):
    return link_of(request) in world.packages[request["package"]].links


def unknown_link(world, request):
    return not link_there(world, request)


def linked(world, request):
    return bool(links_among(world.packages[request["package"]], {request["identity"]}))


def bad_rectangle(world, request):
    return not world.frame.has_rect(rect_of(request))


def too_deep(world, request):
    return world.packages[request["package"]].depth >= GREATEST_DEPTH


def nothing_to_lend(world, request):
    return not start_of(world.frame, world.packages[request["package"]], rect_of(request))


def cut_link(world, request):
    """The least item that would move and has a link to one that would stay."""
    package, going = world.packages[request["package"]], set_of(world, request)
    torn = [link for link in package.links if (link[1] in going) != (link[2] in going)]
    return min((end for _, *ends in torn for end in ends if end in going), default=False)


def foreign(world, request):
    return world.packages[request["package"]].parent != request["other"]


def stale(world, request):
    ticket = world.tickets[request["package"]]
    return request["ticket"] != ticket and str(ticket)


def loan_open(world, request):
    return min((loan.uuid for loan in world.packages.values() if loan.parent == request["package"]), default=False)


def collides(world, request):
    child, into = world.packages[request["package"]], world.packages[request["other"]]
    return next((child.places[place] for place in sorted(child.places) if place in into.places), False)


def gained(world, request):
    """The package that things come into, the items that come and the number of links."""
    package = world.packages[request["package"]]
    if request["command"] == "merge":
        return world.packages[request["other"]], list(package.items.values()), len(package.links)
    return package, [request] * (request["command"] == "add"), int(request["command"] == "link")


def too_many(world, request):
    """The world after the request would be past a limit; the one before is not."""
    if len(world.receipts) >= MOST_RECEIPTS or request["command"] == "split" and len(world.packages) >= MOST_PACKAGES:
        return True
    into, items, links = gained(world, request)
    # Only a package with so many items in all can have so many of one kind: no other is counted.
    if len(into.items) + len(items) > MOST_ITEMS:
        counts = Counter(item["kind"] for item in [*into.items.values(), *items])
        return max(counts.values()) > MOST_ITEMS
    return len(into.links) + links > MOST_LINKS


EVERY = {"add", "delete", "link", "unlink", "split", "merge"}
# The number of a reason, the commands that it is asked of, and its question.
REASONS = [
    (1, EVERY, id_reused), (2, EVERY, unknown_package), (3, {"split"}, package_used), (4, EVERY, bad_text), (5, {"add"}, too_large),
    (6, {"add"}, identity_used), (7, {"delete", "link"}, unknown_item), (8, {"link"}, wrong_kind), (9, {"add"}, bad_place),
    (10, {"add"}, out_of_frame), (11, {"add"}, place_taken), (12, {"link"}, link_there), (13, {"unlink"}, unknown_link),
    (14, {"delete"}, linked), (15, {"split"}, bad_rectangle), (16, {"split"}, too_deep), (17, {"split"}, nothing_to_lend),
    (18, {"split"}, cut_link), (19, {"merge"}, foreign), (20, {"merge"}, stale), (21, {"merge"}, loan_open), (22, {"merge"}, collides),
    (23, EVERY, too_many),
]
NAMES = (
    "IdReused UnknownPackage PackageUsed BadText TooLarge IdentityUsed UnknownItem WrongKind BadPlace OutOfFrame PlaceTaken LinkThere "
    "UnknownLink Linked BadRectangle TooDeep NothingToLend CutLink Foreign Stale LoanOpen Collides TooMany"
).split()


def refusal_of(world, request):
    for number, commands, asked in REASONS:
        found = request["command"] in commands and asked(world, request)
        if found:
            return Refusal(number, "" if found is True else found)
    return None
