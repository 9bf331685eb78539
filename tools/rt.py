"""The kit's command rt with the words behind: `rt.py ci`, `rt.py check`. It is the kit's own script, but that it asks each crate once for what is below it (tools/kit.py)."""

import sys

from kit import Kit, NoKit


def main(words):
    try:
        return Kit().run(words)
    except NoKit as error:
        print(f"rt.py: {error}", file=sys.stderr)
        return 2


if __name__ == "__main__":
    sys.exit(main(sys.argv[1:]))
