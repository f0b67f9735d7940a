"""How large pictures may be: the greatest side of a flat picture and of a volume, and the most bytes of a picture's file.

`bench/limits` compares these numbers with those of the program and of its definitions; all else in Python takes them from here.
"""
MOST_FLAT, MOST_SOLID, MOST_BYTES = 16384, 1024, 2**30
