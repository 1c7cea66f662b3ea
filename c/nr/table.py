"""The tool linksim-table by the name of its module: it reads the published tables from the text of TS 38.212, tells two tables
apart, and makes ROMs of them; --help has more.

    python -m nr.table read TEXT.. --out table.csv"""

from linksim_tools.start import table

if __name__ == "__main__":
    table()
