"""Makes a sequence small which still shows what it showed."""


class Spent(Exception):
    """As many were tried as may be."""


def reduced(items, shows):
    """Returns a part of the items, in their order, which shows what they all show: first whole halves of them go, then
    smaller pieces, and in the end one by one, until none can be missed. What shows it when it is cut to nothing is cut
    to nothing."""
    size = len(items)
    while size:
        at, is_smaller = 0, False
        while at < len(items):
            without = items[:at] + items[at + size :]
            if shows(without):
                items, is_smaller = without, True
            else:
                at += size
        if size > 1 or not is_smaller:
            size //= 2
        size = min(size, len(items))
    return items


def shrunk(script, differs, most=2000):
    """Returns a small script that differs as well: fewer atoms, then atoms of fewer bytes, then fewer workers and
    transactions of a batch. `most` scripts are tried."""
    best, tried = script, 0

    def still(candidate):
        nonlocal best, tried
        if tried == most:
            raise Spent
        tried += 1
        if not differs(candidate):
            return False
        best = candidate
        return True

    try:
        reduced(script.atoms, lambda atoms: still(best._replace(atoms=atoms)))
        for at, atom in enumerate(best.atoms):
            reduced(atom.content, lambda content: bool(content) and still(with_bytes(best, at, content)))
        for simple in ({"workers": 1}, {"batch": 1}, {"is_spaced": False}):
            still(best._replace(**simple))
    except Spent:
        pass
    return best


def with_bytes(script, at, content):
    atoms = list(script.atoms)
    atoms[at] = atoms[at]._replace(content=content)
    return script._replace(atoms=atoms)
