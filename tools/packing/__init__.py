"""What tools/release and tools/install make: the version, the programs, the files of an installation, and the archive and the package of them."""


class Failure(Exception):
    """Why nothing can be packed."""


def need(holds, why):
    if not holds:
        raise Failure(why)
