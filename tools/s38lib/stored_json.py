"""A store as JSON: all of it, for other programs."""
from . import bodies, facts
from .values import rights_of, scalar


def value(data):
    return {"bytes": data.hex().upper(), "said": facts.letters(data)}


def entry(fields, data):
    """An entry of a data space: its fields by value; null where it is deleted."""
    return None if data is None else [scalar(piece, field) for piece, field in zip(bodies.fields_of(fields, data), fields)]


def pointer(at, one):
    return {"byte": at, "kind": one.kind, "object": one.number,
            **({"rights": rights_of(one.rights)} if one.kind == "system" else {"offset": one.offset}),
            **({"attribute": one.attribute} if one.kind == "data" else {})}


def journaled(store, one):
    return {"sequence": one.sequence, "unit": one.unit, "process": one.process, "kind": one.kind, "object": one.object, "ordinal": one.ordinal,
            "before": one.before.hex().upper(), "after": one.after.hex().upper(), "said": facts.journal_told(store, one)}


def body_of(store, one):
    """What an object holds, by its kind."""
    body = one.body
    made = {
        "CONTEXT": lambda: {},
        "PROGRAM": lambda: {"adopts": body.template.adopts, "propagates": body.template.propagates, "lines": body.text.rstrip("\n").split("\n")},
        "PROFILE": lambda: {"specials": facts.SPECIALS[body.specials], "limit": body.limit, "pages": facts.pages_owned(store, one.number)},
        "SPACE": lambda: {"bytes": body.data.hex().upper(), "pointers": [pointer(*pair) for pair in body.pointers.items()]},
        "QUEUE": lambda: {"order": body.order, "key": body.key, "longest": body.longest,
                          "messages": [{"key": value(key), **value(text)} for key, text in body.messages]},
        "INDEX": lambda: {"longest": body.longest, "entries": [value(data) for data in body.entries]},
        "DATASPACE": lambda: {"port": body.port, "sequence": body.sequence, "fields": body.fields,
                              "entries": [entry(body.fields, data) for data in store.entries_now(one)]},
        "CURSOR": lambda: {"space": body.space, "block": body.block, "position": body.position},
        "JPORT": lambda: {"journal": body.journal}, "JSPACE": lambda: {"entries": [journaled(store, found) for found in body.entries]},
        "CBLOCK": lambda: {"port": body.port}}
    return made[one.kind]()


def of_object(store, one):
    said = {"number": one.number, "kind": one.kind, "subtype": f"{one.subtype:02X}", "name": one.name, "identification": one.identification,
            "context": one.context, "in": facts.place_told(store, one), "owner": one.owner, "owned_by": store.name(one.owner),
            "public": rights_of(one.public), "rows": [{"user": user, "name": store.name(user), "rights": rights_of(bits)} for user, bits in one.rows.items()],
            "parts": len(store.pages[one.number]), "bytes": one.length}
    if one.number in store.faults:
        said["fault"] = {"part": store.faults[one.number][0], "why": store.faults[one.number][1]}
    if one.body is not None:
        said["body"] = body_of(store, one)
    return said


def of_store(store, one=None):
    """A store, or one object of it."""
    if one is not None:
        return of_object(store, one)
    return {"ceiling": store.ceiling, "parts": len(store.parts), "free": store.free(), "gate_was_up": store.was_up,
            "fault": f"BAD IMAGE {store.fault[0]} {store.fault[1]}" if store.fault else None,
            "objects": [of_object(store, store.objects.get(at) or head) for at, head in sorted(store.headers.items())]}
