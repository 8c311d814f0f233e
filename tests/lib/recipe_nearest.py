"""The search for the nearest point of a grid, compared with a search over all points; and the limit
for the distance, in grids whose steps are known beforehand."""

import math
import re

from lib.recipe_calls import called

from grib_grid import Grid
from grib_nearest import Point, Rows, Scattered, direction, dot


def spread(first, last, count):
    return [first + (last - first) * it / max(count - 1, 1) for it in range(count)]


def drawn_latitudes(chance):
    """Returns the latitudes of rows from north to south or from south to north; some grids have
    rows at the poles."""
    count = chance.choice([1, 1, 2, 3, 8, 19])
    ends = chance.choice([(90, -90), (60, 53), (89.5, -89.5), (-90, -60), (12, 11), (90, 90)])
    found = spread(*ends, count)
    return found[::-1] if chance.random() < 0.5 else found


def drawn_longitudes(chance, count):
    """Returns the longitudes of a row: of a part of the globe or of all of it, from 0 or across 0,
    to the east or to the west, with its first point once or twice."""
    step = 360 / count
    first, last = chance.choice([(0, 11), (0, 360 - step), (0, 360), (-180, 180 - step), (350, 370), (5, 5), (300, 420)])
    found = spread(first, last, count)
    if chance.random() < 0.5:
        found = [it % 360 for it in found]
    return found[::-1] if chance.random() < 0.4 else found


def drawn_points(chance):
    """Returns the points of a random grid: equal rows, rows of other lengths, or no rows."""
    latitudes, kind = drawn_latitudes(chance), chance.choice(["equal", "equal", "reduced", "none"])
    count = chance.choice([1, 1, 2, 4, 7, 24])
    if kind == "none":
        points = [Point(x, y) for x in latitudes for y in drawn_longitudes(chance, count)]
        chance.shuffle(points)
        return Scattered(points)
    if kind == "equal":
        return Rows(latitudes, [drawn_longitudes(chance, count)] * len(latitudes))
    return Rows(latitudes, [drawn_longitudes(chance, chance.randint(1, 24)) for _ in latitudes])


def drawn_wanted(chance, points):
    """Returns a point near the grid, in it, between two of its points, at a pole, or anywhere."""
    one, other = points[chance.randrange(len(points))], points[chance.randrange(len(points))]
    return chance.choice([
        one,
        Point((one.latitude + other.latitude) / 2, (one.longitude + other.longitude) / 2),
        Point(one.latitude, (one.longitude + 180) % 360),
        Point(chance.choice([90.0, -90.0]), chance.uniform(-360, 360)),
        Point(chance.uniform(-90, 90), chance.uniform(-360, 360)),
        Point(float(chance.randint(-90, 90)), float(chance.randint(-360, 360))),
    ])


def first_of_all(points, wanted):
    """Returns the number that a search over all points finds: of several, the first, but in a row at
    a pole the one with the nearest longitude."""
    vector, listed = direction(wanted), list(points)
    if isinstance(points, Rows):  # at a pole, the longitude changes no distance
        listed = [Point(it.latitude, it.longitude * (abs(it.latitude) < 90)) for it in listed]
    found = max(range(len(listed)), key=lambda it: dot(vector, direction(listed[it])))
    if isinstance(points, Scattered) or abs(listed[found].latitude) < 90:
        return found
    row = next(it for it, at in enumerate(points.latitudes) if at == listed[found].latitude)
    east = [abs((it % 360 - wanted.longitude + 180) % 360 - 180) for it in points.longitudes[row]]
    return points.starts[row] + east.index(min(east))


def try_nearest(number, chance, tally):
    """Tests a random grid with twenty points."""
    points = drawn_points(chance)
    listed = list(points)
    is_so = len(listed) == len(points) and all(points[it] == at for it, at in enumerate(listed))
    tally.holds(is_so, f"grid {number}: the points by their numbers")
    for _ in range(20):
        wanted = drawn_wanted(chance, points)
        found = points.nearest(wanted), first_of_all(points, wanted)
        tally.check(f"grid {number}: {wanted} in {listed[:50]}", *found)


def try_halfway(tally):
    """Tests points halfway between two rows, an eighth of a degree apart: the products of the two
    nearest points differ by rounding alone, and the greater one must be found."""
    latitudes, longitudes = spread(90, -90, 1441), spread(0, 357.5, 9)
    for pair in zip(latitudes, latitudes[1:]):
        points, wanted = Rows(list(pair), [longitudes] * 2), Point(sum(pair) / 2, longitudes[4])
        tally.check(f"halfway: {wanted}", points.nearest(wanted), first_of_all(points, wanted))


REGIONAL = Rows(spread(60, 53, 8), [spread(0, 11, 12)] * 8)
GLOBAL = Rows(spread(90, -90, 721), [spread(0, 359.75, 1440)] * 721)
REDUCED = Rows([80.0, 40.0, -40.0, -80.0], [spread(0, 270, 4), spread(0, 330, 12), spread(0, 330, 12), spread(0, 270, 4)])
PLANE = Scattered([Point(50 + row, 10 + column / 2) for row in range(3) for column in range(4)], 4)
LOOSE = Scattered(list(PLANE.points))
ALONE = Rows([10.0], [[20.0]])
ROW, COLUMN = Rows([60.0], [spread(0, 9, 10)]), Rows(spread(0, 9, 10), [[5.0]] * 10)

# The grid, a latitude and a longitude, the place of the nearest point, its distance, and the step
# of the grid there, both in degrees; by hand, to three digits.
LIMITS = (
    (REGIONAL, -89.0, 200.0, 84, 143.938, 1.0),
    (REGIONAL, 52.1, 11.0, 95, 0.9, 1.0),
    (REGIONAL, 51.9, 11.0, 95, 1.1, 1.0),
    (REGIONAL, 60.0, -1.9, 0, 0.95, 1.0),  # a degree of longitude is half a degree there
    (REGIONAL, 60.0, 358.1, 0, 0.95, 1.0),
    (REGIONAL, 60.0, -2.5, 0, 1.25, 1.0),
    (GLOBAL, 0.0, 359.9, 360 * 1440, 0.1, 0.25),  # across 360 degrees
    (GLOBAL, 90.0, 123.0, None, 0.0, 0.25),
    (GLOBAL, -89.9, 77.0, None, 0.1, 0.25),
    (REDUCED, 90.0, 0.0, None, 10.0, 40.0),
    (REDUCED, 0.0, 10.0, 4, 41.027, 80.0),
    (PLANE, 53.5, 10.0, 8, 1.5, 1.0),
    (PLANE, 52.9, 10.0, 8, 0.9, 1.0),
    (LOOSE, 52.9, 10.0, 8, 0.9, 0.308),
    (LOOSE, 52.3, 10.0, 8, 0.3, 0.308),
    (ALONE, 10.0, 20.0, 0, 0.0, 0.0),
    (ALONE, 10.1, 20.0, 0, 0.1, 0.0),
    (ROW, 60.4, 3.0, 3, 0.4, 0.5),
    (ROW, 60.6, 3.0, 3, 0.6, 0.5),
    (COLUMN, 3.0, 5.9, 3, 0.899, 1.0),
    (COLUMN, 3.0, 6.2, 3, 1.198, 1.0),
)


def try_limits(tally):
    """Tests which distances are refused, and what the refusals say."""
    for points, latitude, longitude, place, away, step in LIMITS:
        grid, what = Grid(None, points, range(len(points))), f"limit: {latitude} {longitude}"
        number = points.nearest(Point(latitude, longitude))
        tally.holds(math.isclose(points.step(number), step, abs_tol=1e-3), f"{what}: {points.step(number)}")
        tally.holds(place in (None, number), f"{what}: place {number}")
        for within, limit in ((None, step), (away + 0.01, away + 0.01), (max(away - 0.01, 0), away - 0.01)):
            status, said = called(grid.nearest, latitude, longitude, within)
            tally.check(f"{what}: within {within}: {said}", status, 1 if away > max(limit, 0) else 0)
            named = map(float, re.findall(r"\d+(?:\.\d+)?", said))
            is_so = not status or any(math.isclose(it, away, abs_tol=1e-3) for it in named)
            tally.holds(is_so, f"{what}: the distance in: {said}")
