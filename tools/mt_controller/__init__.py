"""A controller whose log outlives it: the lines of `tools/controller` stand in SQLite or in etcd before they are applied.

docs/OPERATING.md says how it is used, and docs/STATUS.md what isn't promised.
"""
