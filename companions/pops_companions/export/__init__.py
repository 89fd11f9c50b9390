"""Writes problems in the forms of other programs: inputs of Popeye, YAML of Olive and of YACPDB."""
