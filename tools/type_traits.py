"""The traits that tools/auto_traits.toml states: tools/reference writes them on the pages, tools/auto_traits checks them."""
import collections, re, tomllib

from repository import root

TRAITS = ("Send", "Sync")
# A type with its arguments, the traits that it has, and why it lacks `Send` or `Sync`.
TypeTraits = collections.namedtuple("TypeTraits", "path traits reason")


def type_traits():
    rows = tomllib.loads((root / "tools" / "auto_traits.toml").read_text())
    return [TypeTraits(path, row["traits"], row.get("reason", "")) for path, row in rows.items()]


def traits_on_pages():
    """The traits by the path of the type without its arguments."""
    return {re.sub(r"<.*", "", it.path): it for it in type_traits()}
