"""What OpenCV finds of a picture's outer contour, which goes through the middles of the outermost pixels.

It is left out where OpenCV is not installed.
"""
import importlib.util

import numpy as np

IS_THERE = importlib.util.find_spec("cv2") is not None


def version():
    """OpenCV's, as far as there is one."""
    if not IS_THERE:
        return "none"
    import cv2

    return cv2.__version__


def found(picture):
    """Its measures by the names of OpenCV's functions; None without OpenCV."""
    if not IS_THERE:
        return None
    import cv2

    contours, _ = cv2.findContours(picture.astype(np.uint8), cv2.RETR_EXTERNAL, cv2.CHAIN_APPROX_NONE)
    contour = max(contours, key=len)
    hull = cv2.convexHull(contour)
    return {
        "arcLength": cv2.arcLength(contour, True),
        "contourArea": cv2.contourArea(hull),
        "hull": cv2.arcLength(hull, True),
        "minAreaRect": min(cv2.minAreaRect(contour)[1]),
    }
