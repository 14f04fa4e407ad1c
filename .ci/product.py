#!/usr/bin/env python3
"""Compares examples/product/inline.txt with the folder and the script that it is made of.

inline.txt is product.txt with the manifests of the folder packages in front of it. With --write it is written
anew.
"""

import os
import sys

TOP = os.path.dirname(os.path.dirname(os.path.abspath(__file__)))
PRODUCT = os.path.join(TOP, "examples", "product")
HEAD = """\
# The same script as product.txt, with its manifests in front of it. It needs no folder:
#
#     ./component_manager run < examples/product/inline.txt
#
# .ci/product.py --write makes it from product.txt and the folder packages.

"""


def manifests():
    """The manifest files of the folder, as pairs of a URL and a file, in the order of their URLs."""
    packages = os.path.join(PRODUCT, "packages")
    found = []
    for folder, _, names in os.walk(packages):
        for name in names:
            file = os.path.join(folder, name)
            host, package, fragment = os.path.relpath(file, packages).split(os.sep, 2)
            found.append((f"fuchsia-pkg://{host}/{package}#{fragment}", file))
    return sorted(found)


def text_of(file):
    with open(file, encoding="utf-8") as it:
        return it.read()


def inline():
    """What inline.txt has to be."""
    blocks = [f"manifest {url}\n{text_of(file)}%%\n" for url, file in manifests()]
    script = text_of(os.path.join(PRODUCT, "product.txt"))
    behind_its_head = script[script.index("\n\n") + 2 :]
    return HEAD + "".join(blocks) + "\n" + behind_its_head


def main(words):
    file = os.path.join(PRODUCT, "inline.txt")
    wanted = inline()
    if words == ["--write"]:
        with open(file, "w", encoding="utf-8") as it:
            it.write(wanted)
    elif words:
        print("usage: product.py [--write]", file=sys.stderr)
        return 2
    elif not os.path.exists(file) or text_of(file) != wanted:
        print("examples/product/inline.txt isn't product.txt with the manifests of packages:")
        print("  .ci/product.py --write makes it anew")
        return 1
    print(f"examples/product/inline.txt has the {len(manifests())} manifests of packages")
    return 0


if __name__ == "__main__":
    sys.exit(main(sys.argv[1:]))
