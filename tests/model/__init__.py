"""A model of the tag, of several on a line and of the dock, written from the documents alone, to compare the programs with."""
