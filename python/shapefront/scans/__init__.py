"""Volumes as scanners and segmentations write them: each format by the library of its field, with the size of a voxel where the file tells it."""
