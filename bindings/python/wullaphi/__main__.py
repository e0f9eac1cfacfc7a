"""`python -m wullaphi --version` says which version is there, once its library has been loaded."""

import argparse

from . import __version__, library_version


def main() -> None:
    parser = argparse.ArgumentParser(prog="python -m wullaphi", description="The probes and the checker of Wullaphi.")
    library_version()
    parser.add_argument("--version", action="version", version=f"wullaphi {__version__}")
    parser.parse_args()
    parser.print_help()


if __name__ == "__main__":
    main()
