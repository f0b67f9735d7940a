"""What a report that holds has to show, by searches: of each kind, whether what was read of it is that.

And the contours of a picture with the least lines of their segments, from the picture alone.
"""
from secondreading.contours import Contour, Segment
from secondreading.cracks import Path
from secondreading.geometry import raster, square

from comparison.searches import framed_points
from comparison.straight import arc, fewest_pieces, from_origin, has_plane, is_straight, is_straight_for, is_straight_path, least_row, maximal_runs


def analysis(picture, told):
    """Exactly the maximal segments with their least lines, or patches that cannot grow."""
    return contours(picture, told.sections) if picture.axes == 2 else faces(picture, told.sections)


def contours(picture, told):
    return len(told) == len(picture.contours) and all(is_contour_shown(contour) for contour in told)


def is_contour_shown(contour):
    """Whether the segments are exactly the maximal straight runs, told least lines have the least main coefficient, and no gap is straight."""
    points, segments = contour.path.points, contour.segments
    exact = [(s.first, s.last) for s in segments] == maximal_runs(points, is_straight)
    least = all(s.row[s.axis] == least_of(points, s)[s.axis] for s in segments if s.is_least)
    return exact and least and not any(is_straight_for(gap.axis, gap.run) for gap in contour.gaps)


def least_of(points, segment):
    return least_row(segment.axis, from_origin(arc(points, segment.first, segment.last)))


def least_contours(picture):
    """The contours of a flat picture with its maximal segments and a least line of each, all by searches."""
    return [Contour(start, Path(points), least_segments(points), []) for start, points in picture.contours]


def least_segments(points):
    segments = []
    for first, last in maximal_runs(points, is_straight):
        t = 0 if is_straight_for(0, arc(points, first, last)) else 1
        segments.append(Segment(first, last, t, least_row(t, from_origin(arc(points, first, last))), True))
    return segments


def faces(picture, told):
    """Whether each patch has a plane, and none with a point that it refuses; and patches make up the exposed points of all faces."""
    points = sorted((p for _, patch, _ in told for p in patch), key=raster)
    whole = points == sorted((p for _, _, exposed in picture.faces for p in exposed), key=raster)
    return whole and all(has_plane(t, patch) and not any(has_plane(t, patch + [p]) for p in refused) for t, patch, refused in told)


def edges(picture, told):
    """Whether the arcs are exactly the maximal straight runs of each cycle."""
    return [arcs for _, arcs in told] == [maximal_runs(path, is_straight_path) for _, path in picture.cycles]


def pieces(picture, told):
    """Whether each contour has as many pieces as the shortest of all its splits, and no refused run is straight for its axis."""
    fewest = all(count == fewest_pieces(points) for points, count, _ in told)
    return fewest and not any(is_straight_for(gap.axis, gap.run) for _, _, gaps in told for gap in gaps)


def union(picture, balls):
    return {p for p in framed_points(picture) if any(square(centre, p) < s for centre, s, _ in balls)}


def balls(picture, told):
    """Whether the object is exactly the union of the balls, and not without any one of them."""
    needed = all(union(picture, told[:k] + told[k + 1 :]) != picture.points for k in range(len(told)))
    return union(picture, told) == picture.points and needed
