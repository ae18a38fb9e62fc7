"""The kinds of advice: of each case the sentence that is told, and what to do. What stands in braces is filled in where it is told."""

KINDS = ["across levels", "lift without a ride", "unreachable", "one way", "not for visitors", "scale", "far openings", "thin", "unnamed", "closings"]

# By kind and case: what is told, and what to do.
CASES = {
    ("across levels", "amenity"): (
        "its units lie on {levels}, so ways lead through it from one to the other as if through the ceiling, at no cost",
        "keep in `unit_ids` the units of one level alone; a lift is a unit on each level, and a relationship of category `elevator` between these",
    ),
    ("across levels", "relationship"): (
        "its units lie on {levels}, so ways lead through it at no cost, and relationship {beside} between these units costs in vain",
        "keep in `unit_ids` the units of one level alone; the relationship then leads from level to level",
    ),
    ("across levels", "anchor"): (
        "its `level_id` is {level}, and its anchor stands in a unit of {other}",
        "correct `level_id`, or name an anchor in a unit of that level",
    ),
    ("lift without a ride", "amenity"): (
        "this lift names units of {levels}, and no relationship leads from one to the other, so a ride costs nothing and can't be closed",
        "draw the lift as a unit of category `elevator` on each level, add a relationship of that category between them, and keep one level's units here",
    ),
    ("lift without a ride", "unit"): (
        "this lift stands above or below that of {other}, and no relationship leads from it, so nobody is taken along",
        "add a relationship of category `elevator`, `undirected`, with this unit and {unit} as origin and destination",
    ),
    ("unreachable", "part"): (
        "no way for `{profile}` leads here from outside, nor to what is joined with it: {count} in all on {levels}",
        "move the opening between this part and the rest onto the border of both units, or add one; between levels add a relationship that the profile may use",
    ),
    ("unreachable", "restricted"): (
        "it lies in a unit with a `restriction`, where `{profile}` isn't led; so do {more} more, and visitors find all of them among the places",
        "take the `restriction` away where visitors may come, else nothing, or leave the feature out",
    ),
    ("one way", "not left"): (
        "ways for `{profile}` lead here and none back outside: {count} in all on {levels}",
        "write `undirected` in the relationship that leads here, or add one that leads back",
    ),
    ("one way", "not reached"): (
        "ways for `{profile}` lead from here to the outside and none here: {count} in all on {levels}",
        "write `undirected` in the relationship that leads from here, or add one that leads here; a wrong order of origin and destination looks so too",
    ),
    ("not for visitors", "way"): (
        "it is {what}, and the cheapest way for `{profile}` from {start} to {end} goes by it",
        "{mend}",
    ),
    ("not for visitors", "to come"): (
        "it is valid from {date} on, and is among the places already",
        "publish it from that day on, or correct `validity`",
    ),
    ("not for visitors", "over"): (
        "it was valid until {date}, and is among the places still",
        "take it out, or correct `validity`",
    ),
    ("scale", "venue"): (
        "at its latitude of {latitude} degrees a degree is {true_x} cm of longitude and {true_y} cm of latitude; `venue.toml` has kx = {x}, so lengths"
        " from west to east come out {wrong_x}, and ky = {y}, so those from south to north {wrong_y}",
        "write the two lines that `./venue scale {latitude}` prints into `venue.toml`",
    ),
    ("far openings", "opening"): (
        "it touches no unit; the nearest is {unit}, whose border is {far} cm away, or {ticks} nanodegrees, where `border_tol` is {tolerance}",
        "move its ends onto the border of that unit, and of the one on the other side, or set `border_tol` to {ticks} or more",
    ),
    ("thin", "narrow"): (
        "it is about {wide} cm wide, less than `{key}` of {tolerance} nanodegrees, so {so}",
        "draw it as wide as it is, or set `{key}` lower",
    ),
    ("thin", "overlap"): (
        "it lies over {unit}, some {deep} cm deep, more than `border_tol`; people are led through both, and a door within is no door of either",
        "move the border of one to that of the other",
    ),
    ("unnamed", "lift"): ("this lift has no name, so no direction can tell which is meant", "give it a `name`, as it is written beside it"),
    ("unnamed", "stairs"): ("these stairs have no name, so no direction can tell which are meant", "give them a `name`, as they are called there"),
    ("unnamed", "entrance"): ("this entrance has no name, so no direction can tell which is meant", "give it a `name`, as it is written above it"),
    ("unnamed", "equal"): (
        "{count} features of {level} have this name, {like} too, so visitors can't tell which is meant",
        "give each a name of its own, as with the gate or the street beside it",
    ),
    ("closings", "opening"): ("{cut} for `{profile}` if this door were closed", "see that a second way leads there; else let staff tell before they close it"),
    ("closings", "passage"): ("{cut} for `{profile}` if this {what} were closed", "see that a second way leads there, as by another lift or a ramp; else let staff tell before they close it"),
}


class Advice:
    """A line of advice: its kind, the feature that is meant, the words, and for tools what else is concerned and the numbers."""

    def __init__(self, kind, case, feature, others=(), **words):
        self.kind, self.case, self.feature, self.others, self.words = kind, case, feature, list(others), words
        says, mend = CASES[kind, case]
        self.says, self.mend = says.format(**words), mend.format(**words)
