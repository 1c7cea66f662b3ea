"""Puts the Python packages nr and linksim_tools on Python's path, for the scripts beside this file: those of a checkout, or those
that `make install` put into share/nr. A Debian package has them where Debian's Python looks anyway."""

import pathlib
import sys

sys.dont_write_bytecode = True
TOP = pathlib.Path(__file__).resolve().parent.parent
sys.path[:0] = [str(it) for it in (TOP / "tools", TOP / "c", TOP.parent / "nr") if any(it.glob("*/__init__.py"))]
