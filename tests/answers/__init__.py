"""The answers of both programs on drawn input, beside the plain model."""


class Wrong(Exception):
    """An answer that isn't the due one."""


def need(holds, why):
    if not holds:
        raise Wrong(why)
