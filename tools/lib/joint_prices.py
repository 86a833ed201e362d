"""The joint prices of a batch of version 4, a barrier method on the welfare problem: in each step one linear system says by how much all
prices move at once. It goes by whole numbers alone, and shares nothing with the program.

A number of the system is m times 2^e, as a tuple m, e with 62 bits of m. Each order has a share of its batch maximum, in
2^-32, and money for a unit is in 2^-12 grains. An order here has the attributes rate, left, low, high and row, and `cost`."""

STEPS, ONE = 100, 1 << 32
ZERO = 0, -(1 << 20)


def quotient(a, b):
    """a / b, cut towards 0; b is above 0."""
    return a // b if a >= 0 else -(-a // b)


def within(bits, x):
    return min(max(x, -(1 << bits)), 1 << bits)


# ---- numbers of 62 bits


def scaled(x, k):
    """x / 2^k, cut towards 0."""
    return quotient(x, 1 << k) if k >= 0 else x << -k


def cut(m, e):
    if m == 0:
        return ZERO
    k = abs(m).bit_length() - 62
    return scaled(m, k), within(20, e + k)


def times(a, b):
    return cut(a[0] * b[0], a[1] + b[1])


def over(a, b):
    return ZERO if b[0] <= 0 else cut(quotient(a[0] << 62, b[0]), a[1] - b[1] - 62)


def minus(a, b):
    e = max(a[1], b[1])
    first, second = (scaled(each[0] << 62, min(e - each[1], 126)) for each in (a, b))
    return cut(first - second, e - 62)


def whole(a):
    return within(62, scaled(a[0], min(max(-a[1], -62), 62)))


# ---- the system


def solved(rows):
    """The unknowns of a symmetric system, of which each row begins with its diagonal and ends with its right side."""
    rows, unknowns = [list(row) for row in rows], []
    for k, (diagonal, *rest) in enumerate(rows):
        for place, x in enumerate(rest[:-1]):
            if x[0] != 0:
                f = over(x, diagonal)
                rows[k + 1 + place] = [minus(t, times(f, r)) for t, r in zip(rows[k + 1 + place], rest[place:])]
    for diagonal, *rest in reversed(rows):
        value = rest[-1]
        for g, x in zip(rest, unknowns):
            value = minus(value, times(g, x))
        unknowns = [over(value, diagonal), *unknowns]
    return unknowns


class Stand:
    """An order in a step, at its share and these prices."""

    def __init__(self, order, share, tau, prices):
        self.room, self.share = min(order.rate, order.left), share
        line = (self.room * (order.high - order.low) << 12) // order.rate
        dear = line * share // ONE - (order.high - order.cost(prices) << 12)
        self.stiff = line + (max(dear, 0) + tau) * ONE // share + (max(-dear, 0) + tau) * ONE // (ONE - share)
        self.lack = tau * ONE // share - tau * ONE // (ONE - share) - dear

    def target(self, move):
        return self.share + within(60, quotient((self.lack - (move << 12)) * ONE, self.stiff))

    def next(self, move):
        """The share after the price has moved; it loses at most half its distance to 0 and to the whole."""
        return max(-(-self.share // 2), min(self.target(move), ONE - -(-(ONE - self.share) // 2)))


def moves(start, prices, orders, stands):
    """By how much each price moves."""
    count = len(prices)
    pairs = [[(1 << 20 if a == b else 0) for b in range(count)] for a in range(count)]
    rights = [quotient(first - price, 1 << 30) for first, price in zip(start, prices)]
    for order, stand in zip(orders, stands):
        slope, aim = stand.room * ((1 << 94) // stand.stiff), stand.room * stand.target(0)
        for a, weight in order.row:
            rights[a] += weight * aim
            for b, other in order.row:
                pairs[a][b] += other * (weight * slope)
    rows = [[cut(pairs[a][b], 0) for b in range(a, count)] + [cut(rights[a], 50)] for a in range(count)]
    return [whole(x) for x in solved(rows)]


def joint_prices(orders, start, are_settled):
    """The prices after so many steps, or those before at which all assets are settled."""
    prices, shares, tau = list(start), [1 << 31 for _ in orders], 1 << 60
    for _ in range(STEPS):
        if are_settled(prices):
            break
        stands = [Stand(order, share, tau, prices) for order, share in zip(orders, shares)]
        by = moves(start, prices, orders, stands)
        prices = [within(61, price + move) for price, move in zip(prices, by)]
        shares = [stand.next(order.cost(by)) for order, stand in zip(orders, stands)]
        tau //= 3
    return prices
