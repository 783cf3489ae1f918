"""Cuts: the identities and the links that a split takes out of a package."""

from collections import defaultdict

from .contents import place_of, rect_of


def start_of(frame, package, rect):
    def is_inside(item):
        if item["kind"] == "tile":
            return frame.tile_inside(rect, *place_of(item))
        return item["kind"] == "row" and frame.point_inside(rect, item["x"], item["y"])

    return {identity for identity, item in package.items.items() if is_inside(item)}


def strict_set(package, start):
    """The start and the media linked to it."""
    return start | {other for _, base, other in package.links if base in start and package.items[other]["kind"] == "media"}


def follow_set(package, start):
    """The least set that holds the start and, with either end of a link, the other."""
    beside = defaultdict(set)
    for _, base, other in package.links:
        beside[base].add(other)
        beside[other].add(base)
    found, ahead = set(start), list(start)
    while ahead:
        new = beside[ahead.pop()] - found
        found |= new
        ahead += new
    return found


def set_of(world, request):
    package = world.packages[request["package"]]
    start = start_of(world.frame, package, rect_of(request))
    return (strict_set if request["kind"] == "strict" else follow_set)(package, start)


def links_among(package, identities):
    return {link for link in package.links if link[1] in identities or link[2] in identities}
