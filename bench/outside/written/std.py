"""What the definitions take from the standard library, and how a function of a past is kept once computed."""


def memo(function):
    """Keeps what a method gave for its arguments."""
    def kept(self, *args):
        key = (function, args)
        if key not in self.kept:
            self.kept[key] = function(self, *args)
        return self.kept[key]
    return kept


class Past:
    """What happened, the newest first."""
    __slots__ = ("what", "past")

    def __init__(self, what, past):
        self.what, self.past = what, past


def ok(value):
    return "ok", value


def err(fault):
    return "err", fault


def then(result, step):
    """A step after a step: the first fault counts."""
    return step(result[1]) if result[0] == "ok" else result


def first(items):
    return items[0] if items else None


def find(test, items):
    return next((item for item in items if test(item)), None)


def concat(lists):
    return [item for items in lists for item in items]


def is_prefix(front, whole):
    return whole[:len(front)] == front


def is_some(option):
    return option is not None
