"""States: None where one is dead, else a map from roots to kinds; the event's root is ".", the metadata's "%"."""

from reading.kinds import ANY, NEVER, cut, join, print_kind, within, write


def join_kinds(*every):
    joined = NEVER
    for one in every:
        joined = cut(join(joined, one))
    return joined


def join_states(*every):
    joined = None
    for one in every:
        if joined is None or one is None:
            joined = one if joined is None else joined
        else:
            joined = {root: cut(join(kind, one[root])) for root, kind in joined.items() if root in one}
    return joined


def assign(state, target, new):
    """The state with a kind written; the empty target takes nothing."""
    if state is None or target.root is None:
        return state
    return {**state, target.root: cut(write(state.get(target.root, ANY), target.steps, new))}


def ended(state, before):
    """The state once the names that `before` doesn't know have ended."""
    return None if state is None else {root: kind for root, kind in state.items() if root in before}


def state_within(a, b):
    return a is None or (b is not None and all(root in a and within(a[root], kind) for root, kind in b.items()))


def told_state(state):
    if state is None:
        return None
    names = sorted((root for root in state if root != "."), key=lambda n: n.encode())
    return [f"{root} {print_kind(state[root])}" for root in ["."] + names]
