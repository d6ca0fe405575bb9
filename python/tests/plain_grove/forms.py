"""The tables of constructors and positions, as docs/FORMATS.md has them."""

# Of each constructor its sort, and its positions with the sorts of their children.
FORMS = {
    "root": ("top", {"main": "exp"}),
    "var": ("exp", {}),
    "lam": ("exp", {"param": "pat", "type": "typ", "body": "exp"}),
    "ap": ("exp", {"fun": "exp", "arg": "exp"}),
    "num": ("exp", {}),
    "plus": ("exp", {"left": "exp", "right": "exp"}),
    "true": ("exp", {}),
    "false": ("exp", {}),
    "if": ("exp", {"cond": "exp", "then": "exp", "else": "exp"}),
    "pair": ("exp", {"first": "exp", "second": "exp"}),
    "fst": ("exp", {"of": "exp"}),
    "snd": ("exp", {"of": "exp"}),
    "pvar": ("pat", {}),
    "tnum": ("typ", {}),
    "tbool": ("typ", {}),
    "tarrow": ("typ", {"from": "typ", "to": "typ"}),
    "tprod": ("typ", {"left": "typ", "right": "typ"}),
    "let": ("exp", {"param": "pat", "def": "exp", "body": "exp"}),
    "inl": ("exp", {"of": "exp"}),
    "inr": ("exp", {"of": "exp"}),
    "case": ("exp", {"on": "exp", "lparam": "pat", "lbody": "exp", "rparam": "pat", "rbody": "exp"}),
    "tsum": ("typ", {"left": "typ", "right": "typ"}),
}
WORDS = list(FORMS)
RANK = {word: rank for rank, word in enumerate(WORDS)}
FIRST_OF_VERSION_TWO = RANK["let"]

POSITIONS = (
    "main param type def body fun arg left right cond then else first second of from to on lparam lbody rparam rbody"
).split()
POSITION_RANK = {word: rank for rank, word in enumerate(POSITIONS)}
POSITIONS_OF_VERSION_TWO = {"def", "on", "lparam", "lbody", "rparam", "rbody"}

LAST_AUTHOR = 2**32 - 1
LAST_COUNTER = 2**64 - 1


def first_position(word, sort):
    """The first position of a constructor whose children have the sort, or None."""
    return next((position for position, of in FORMS[word][1].items() if of == sort), None)
