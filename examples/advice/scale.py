"""How long a degree is."""
from math import cos, radians, sin, sqrt

# Of the ellipsoid of WGS 84: the centimetres of a degree along the equator and, there, towards the pole; the square of its eccentricity.
ALONG, ACROSS, SQUARE = 11_131_949.08, 11_057_427.58, 0.00669437999


def degree(latitude):
    """The centimetres of a degree of longitude and of one of latitude, by the ellipsoid's radii of curvature."""
    at = radians(latitude)
    w = sqrt(1 - SQUARE * sin(at) ** 2)
    return max(1, round(ALONG * cos(at) / w)), round(ACROSS / w**3)


def lines(latitude):
    """The lines of `venue.toml`."""
    return "kx = {}\nky = {}\n".format(*degree(latitude))
