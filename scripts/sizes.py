"""Inputs that give one quantity of a call, a line or a run a size. The caller passes the
settings."""
import json


def new(current=None, **more):
    return {"call": "new", "name": "n", "parent": "root" if current is None else current, **more}


def event(current=None, **more):
    return {"call": "event", "level": "INFO", "fields": [["message", "x"]], "current": current, **more}


def close(span):
    return {"call": "close", "id": span}


def chain(size, first=1, above=None):
    """Returns `size` spans, each in the one before it."""
    return [new(above if at == 0 else first + at - 1) for at in range(size)]


def fields(size):
    return [["k", "v"]] * size


def depth(size):
    return [*chain(size), event(size or None), *(close(at) for at in range(size, 0, -1))]


def closing_at_once(size):
    return [*chain(size), event(size or None), *(close(at) for at in range(1, size + 1))]


def live_spans(size):
    return [*([new()] * size), event(1 if size else None), event(size or None), *(close(at) for at in range(size, 0, -1)), event()]


def children(size):
    """Returns a span that `size` children keep alive. They close in the order of their creation."""
    return [new(), *([new(1)] * size), event(2 if size else 1), close(1), *(close(at) for at in range(2, size + 2)), event(1)]


def fields_of_a_call(size):
    return [new(fields=fields(size)), event(1, fields=fields(size)), event(fields=[["log.x", "v"]] * size + [["message", "x"]]), close(1)]


def fields_recorded(size):
    """Returns records of one field each, for a span without fields and for one with a field, and a
    record of all fields at once."""
    record = {"call": "record", "fields": fields(1)}
    return [new(), new(fields=fields(1)), *({**record, "id": at % 2 + 1} for at in range(size)),
            {"call": "record", "id": 1, "fields": fields(size)}, event(1), event(2), close(2), close(1)]


def bytes_of_texts(size):
    text = "y" * size
    fields_of_texts = [["message", text], [text, text]]
    return [new(name=text, target=text, fields=fields_of_texts), event(1, target=text, thread_name=text, fields=fields_of_texts),
            event(fields=[["message", "é" * size]]), close(1)]


def lines_of_a_block(size):
    return [new(name="\n" * size), new(1, name="a\n" * size), event(2, fields=[["message", "b\n" * size]]),
            event(fields=[["message", "\r\n" * size]]), close(2), close(1)]


def calls_of_a_run(size):
    return [event()] * size


def handles(size):
    return [new(), *([{"call": "clone", "id": 1}] * size), event(1), *([close(1)] * size), event(1), close(1), event(1)]


def branches(size):
    """Returns two branches below one span, with events in turn."""
    return [new(), *chain(size, 2, 1), *chain(size, size + 2, 1), event(size + 1), event(2 * size + 1), event(1), event(size + 1), event(),
            *(close(at) for at in range(2 * size + 1, 0, -1))]


def turns(size):
    """Returns events in two spans in turn, `size` times."""
    return [new(), new(), *([event(1), event(2)] * size), close(1), close(2)]


# The quantities, each with the largest size for which a run takes at most a second.
QUANTITIES = {
    depth: 1025, closing_at_once: 1025, live_spans: 16385, children: 16385, fields_of_a_call: 16385, fields_recorded: 4097,
    bytes_of_texts: 2**20 + 1, lines_of_a_block: 16385, calls_of_a_run: 16385, handles: 16385, branches: 1025, turns: 4097,
}


def sizes(most):
    """Returns the sizes to try: all up to 70, and those next to the powers of two."""
    beside = (2**power + it for power in range(6, 21) for it in (-1, 0, 1))
    return sorted(it for it in {*range(71), *beside} if it <= most)


def lines(settings, calls):
    return [json.dumps(it, ensure_ascii=False, separators=(",", ":")).encode() for it in (settings, *calls)]


def of_lines(size):
    """Yields runs for this size of a line, of the nesting of a value, of the amount or of the
    wraparound."""
    pad, calls = b" " * size, depth(3)
    plain = lines({"indent_lines": True}, calls)
    yield [pad + it + pad for it in plain]
    yield [it[:-1] + b',"x":[' + b"1," * size + b"1]}" if place else it for place, it in enumerate(plain)]
    yield plain[:2] + [b""] * min(size, 2**14) + plain[2:]
    yield lines({"indent_lines": True, "wraparound": size + 1, "verbose_entry": True}, depth(min(size + 2, 300)))
    if size <= 4096:
        yield lines({"indent_lines": True, "indent_amount": size, "verbose_entry": True, "verbose_exit": True}, calls)
        yield lines({"indent_amount": size}, calls)
    if size <= 200:
        yield [plain[0], b'{"call":"new","name":"a","x":' + b"[" * size + b"]" * size + b"}", *plain[1:]]
