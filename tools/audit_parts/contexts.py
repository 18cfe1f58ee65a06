"""In which partition a request's cookies stand."""


def context(chain, site):
    """The top-level site, and whether the request or a document above it is of another site."""
    return chain[0], any(it != chain[0] for it in chain) or site != chain[0]
