"""The parts of tests/library. Each gives its checks one by one: a name, whether it is right (None: not tried), and what came
instead."""
