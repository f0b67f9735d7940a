"""The words among which a user chooses, of which the command and what it calls both know. Nothing is imported here, so `shapes --help` comes at once."""

# What the thinning keeps.
RULES = ("none", "curve", "few")
# What the channels of colours are called.
CHANNELS = ("red", "green", "blue", "alpha")
# What `shape mask` makes pictures of.
MASKS = ("object", "skeleton", "distances", "squares", "thickness")
