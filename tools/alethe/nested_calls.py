"""Nested calls without Python's stack, for terms of any depth.

A nested function is a generator: `result = yield call` makes the call of another one, `return` gives its result.

    run(call)                          the result of a call
    once(known, key, call, circular)   a call whose result is kept under a key; inside itself it raises `circular`
"""


def run(call):
    stack, result = [call], None
    try:
        while stack:
            try:
                inner = stack[-1].send(result)
            except StopIteration as done:
                stack.pop()
                result = done.value
            else:
                stack.append(inner)
                result = None
    finally:
        while stack:
            stack.pop().close()
    return result


def once(known, key, call, circular):
    """The entry of a key is None while its call is made."""
    if key not in known:
        known[key] = None
        try:
            known[key] = yield call
        finally:
            if known[key] is None:
                del known[key]
    if known[key] is None:
        raise circular
    return known[key]
