"""Reads collections of problems in other forms: inputs of Popeye, YAML of Olive and of YACPDB."""
