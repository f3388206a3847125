"""Numbers in words: amounts in cents, shares in basis points, counts."""


def cents(amount):
    return "{:,}".format(amount)


def share(points):
    """Basis points as a percentage."""
    return "%d%%" % (points // 100) if points % 100 == 0 else "%d.%02d%%" % divmod(points, 100)


def counted(count, one, more=None):
    return "%s %s" % (cents(count) if count else "no", one if count == 1 else more or one + "s")
