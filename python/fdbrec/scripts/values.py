"""Where a value has another form than one of `forms.py`, in the words of `places.py`: for values that are no text of a
script, as the answers of nodes."""
import json

from . import places, quick


def mistake(value, form, path=()):
    """The first mistake in a value: its path, what is there, and what is wanted; or None."""
    kind = form[0]
    if kind == "part":
        return mistake(value, form[2], path) or not_together(value, form[1], path)
    if kind == "maybe":
        return mistake(value, form[1], path)
    if kind == "or null" and (value is None or not is_alike(value, form[1])):
        return None if value is None else (path, value, places.wanted(form))
    if kind == "or null":
        return mistake(value, form[1], path)
    if kind == "either" and isinstance(value, (list, dict)):
        return mistake(value, form[1 if isinstance(value, list) else 2], path)
    if kind in ("object", "one of") and isinstance(value, dict):
        return of_members(value, form, path)
    if kind in ("list", "tuple") and isinstance(value, list):
        return of_items(value, form, path)
    return None if is_of(value, form) else (path, value, places.wanted(form))


def is_alike(value, form):
    """Whether a value is of the kind of JSON that a form wants."""
    while form[0] in ("part", "maybe"):
        form = form[-1]
    kinds = {"object": dict, "one of": dict, "list": list, "tuple": list, "either": (list, dict)}
    return isinstance(value, kinds[form[0]]) if form[0] in kinds else True


def is_of(value, form):
    """Whether a value that holds no others is of a form."""
    singles = {int: "number", float: "number", str: "text"}
    return places.is_of(places.Value(singles.get(type(value), "single"), 0, value), form)


def of_members(value, form, path):
    kind, known = form
    if kind == "one of":
        known = {name: known[name] for name in [name for name in value if name in known][:1]}
    for name, it in value.items():
        if name not in known:
            return (*path, name), name, places.wanted(form)
        found = mistake(it, known[name], (*path, name))
        if found:
            return found
    lack = next((name for name, it in known.items() if name not in value and it[0] != "maybe"), None)
    if not known and kind == "one of":
        return path, value, places.wanted(form)
    return lack and (path, value, f" without the member {lack}")


def of_items(value, form, path):
    kind, forms = form
    if kind == "tuple" and len(value) != len(forms):
        return path, value, places.wanted(form)
    each = (mistake(it, forms if kind == "list" else forms[at], (*path, at)) for at, it in enumerate(value))
    return next(filter(None, each), None)


def not_together(value, reference, path=()):
    """The mistake of a part whose values are in their forms, if they break a rule together."""
    return None if quick.is_of(value, reference) else (path, value, places.NOT_TOGETHER)


def said(path, value, why):
    """A mistake in words."""
    found = {dict: "an object", list: "an array"}.get(type(value)) or places.shown(json.dumps(value))
    return f"{places.way(path)}found {found}{why}"
