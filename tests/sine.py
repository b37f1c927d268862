"""The sine, worked out to 60 digits in whole numbers, and the table's entries, each rounded once.

Nothing here follows the project's definitions: pi is Machin's, and each sine is summed from its own series.
"""

STEPS = 4500  # from 0 to 90 degrees, one entry at each end
SCALE = 10**60  # a real number x is held as the whole number nearest to x * SCALE, or one beside it
UNIT = 10**13  # what the table holds its sines in
ERROR = 10**6  # far more than all the dropping below can add up to, and far less than SCALE // UNIT


def arctan_of_inverse(n):
    """SCALE times the arc tangent of 1 / n, by its series."""
    total, power, k = 0, SCALE // n, 0
    while power:
        total += (-1)**k * (power // (2 * k + 1))
        power //= n * n
        k += 1
    return total


PI = 4 * (4 * arctan_of_inverse(5) - arctan_of_inverse(239))


def sine(k):
    """SCALE times the sine of k steps of 0.02 degree, by its series."""
    x = PI * k // (2 * STEPS)
    square = x * x // SCALE
    total, term, n = 0, x, 1
    while term:
        total += term if n % 4 == 1 else -term
        term = term * square // SCALE // ((n + 1) * (n + 2))
        n += 2
    return total


def entry(k):
    """UNIT times the sine of k steps, to the nearest whole number."""
    one = SCALE // UNIT
    whole, rest = divmod(sine(k) + one // 2, one)
    # the sine is known to within ERROR: were it so near to a half, this could not tell the nearest
    if min(rest, one - rest) <= ERROR:
        raise ArithmeticError(f'entry {k} is too near to a half')
    return whole


ENTRIES = [entry(k) for k in range(STEPS + 1)]
