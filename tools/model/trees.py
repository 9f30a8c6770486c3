"""The tree that an Hjson text stands for, as Python data."""

Json = dict[str, "Json"] | list["Json"] | str | int | bool | None
# an object: its members by their keys
Object = dict[str, Json]
