"""What `status`, `log` and `explain` print with --json: one array, an object a line."""

import json


def array_of(objects):
    lines = ["\n" + json.dumps(it, sort_keys=True, ensure_ascii=False, separators=(",", ":")) for it in objects]
    text = "[" + ",".join(lines) + "\n]\n"
    assert json.loads(text) == objects
    return text


def packages_of(world, sight_of):
    """An object for each live package, by UUID, and one for how many files are of none: the second machine has no files."""
    found = []
    for uuid in sorted(world.packages):
        package, ticket = world.packages[uuid], world.tickets[uuid]
        sight = sight_of(world, package)
        sums = {name: sight[name] for name in ("tiles", "media", "rows", "links", "bytes")}
        changed = world.receipts[ticket - 1].at if ticket else None
        found.append(
            {
                "package": uuid,
                "parent": package.parent or None,
                "depth": package.depth,
                "loan": package.loan,
                **sums,
                "last_change": changed,
            }
        )
    return array_of([*found, {"strays": 0}])


def front_of(receipt):
    return {
        "receipt": receipt.seq,
        "at": receipt.at,
        "what": receipt.line.split(" ")[0],
        "from": receipt.source or None,
        "to": receipt.target or None,
    }


def ledger_of(world, package="", first=0, last=None):
    """An object for each receipt that names a package, from a number on, and of those the last."""
    asked = [
        it
        for it in world.receipts
        if it.seq >= first and any((end or "-").startswith(package) for end in (it.source, it.target))
    ]
    asked = asked if last is None else asked[max(len(asked) - last, 0) :]
    return array_of([{**front_of(it), "things": len(it.moved), "bytes": it.sums()[-1]} for it in asked])


def steps_of(world, identity):
    """An object for each receipt that names the identity, and one for where its item is now."""
    steps, place = [], None
    for receipt in world.receipts:
        as_item = any(thing.kind < 4 and thing.base == identity for thing in receipt.moved)
        as_end = any(thing.kind > 3 and identity in (thing.base, thing.other) for thing in receipt.moved)
        place = receipt.target or None if as_item else place
        naming = {(True, True): "both", (True, False): "item", (False, True): "link"}.get((as_item, as_end))
        if naming:
            steps.append({**front_of(receipt), "request": receipt.request, "as": naming})
    return array_of([*steps, {"now": place}])
