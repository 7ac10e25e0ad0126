"""Tests of `prepare` on real files that packages of Debian bring: statsmodels, vega_datasets, R with its data sets and the package
maps, iso-codes and others. What isn't installed is left out. Each table is read by the built program, and compared with what this
file reads of the source by csv and decimal alone."""

import csv
import json
import os
import re
import shutil
import subprocess
import unittest
from decimal import Decimal

from test_prepare import NEEDS_PROGRAM, InFolder

DIST = "/usr/lib/python3/dist-packages"
VEGA = DIST + "/vega_datasets/_data/"
STATSMODELS = DIST + "/statsmodels/datasets/"
ISO = "/usr/share/iso-codes/json/"
UNKNOWN = {"", "NA", "-", "."}
DATE_COLUMN = re.compile(r".*_(day|second)(_\d+)?")
# Files with the words of `prepare` and those of csv.reader by which they are read here.
FILES = [
    (VEGA + "airports.csv", [], {}), (VEGA + "iowa-electricity.csv", [], {}), (VEGA + "seattle-temps.csv", [], {}),
    (VEGA + "seattle-weather.csv", [], {}), (VEGA + "stocks.csv", [], {}), (VEGA + "us-employment.csv", [], {}),
    (STATSMODELS + "anes96/anes96.csv", [], {"delimiter": "\t"}), (STATSMODELS + "co2/co2.csv", [], {}), (STATSMODELS + "fair/fair.csv", [], {}),
    (STATSMODELS + "engel/engel.csv", [], {}), (STATSMODELS + "fertility/fertility.csv", ["--decimals", "16"], {}), (STATSMODELS + "heart/heart.csv", [], {}),
    (STATSMODELS + "danish_data/data.csv", [], {}), (STATSMODELS + "macrodata/macrodata.csv", [], {}), (STATSMODELS + "star98/star98.csv", [], {}),
    ("/usr/share/R/doc/CRAN_mirrors.csv", [], {}), ("/usr/share/distro-info/debian.csv", [], {}), ("/usr/share/distro-info/ubuntu.csv", [], {}),
]
# Data sets of R, with the expression that writes each.
R_FILES = [
    ("airquality", "write.csv(airquality, 'airquality.csv')", {}), ("mtcars", "write.table(mtcars, 'mtcars.csv', sep='\\t', quote=FALSE, col.names=NA)", {"delimiter": "\t"}),
    ("quakes", "write.csv(quakes, 'quakes.csv', row.names=FALSE)", {}), ("state", "write.csv(data.frame(state.x77, state.abb), 'state.csv')", {}),
    ("cities", "library(maps); data(world.cities); write.csv(world.cities, 'cities.csv', row.names=FALSE)", {}),
]


class RealFiles(InFolder):
    """Each file is prepared, read back, and compared cell by cell."""

    def check_file(self, path, words=(), reading=None):
        script, _ = self.prepare(path, *words)
        table = re.search(r"^CREATE TABLE (\w+)", script, re.MULTILINE)[1]
        self.check_script(script, table)
        self.compare(path, script, table, reading or {})

    def compare(self, path, script, table, reading):
        """The table is what is read of the source here: texts as they are, numbers times what the script says, and in the place
        of unknown ones what it says."""
        with open(path, encoding="utf-8", newline="") as file:
            source = [record for record in csv.reader(file, **reading) if record]
        width = len(source[0])
        source = [(record + [""] * width)[:width] for record in source[1:]]
        columns = re.findall(r"^    (\w+) (INT|TEXT),?(.*)", script, re.MULTILINE)
        own = [column for column in columns if not (DATE_COLUMN.fullmatch(column[0]) and "since 1970-01-01" in column[2])]
        self.assertEqual(width, len(own))
        with open(os.path.join(self.folder, table + ".table.csv"), encoding="utf-8", newline="") as file:
            made = list(csv.DictReader(file))
        self.assertEqual(len(source), len(made))
        for place, (name, kind, notes) in enumerate(own):
            times = Decimal((re.search(r"times (\d+)", notes) or (0, 1))[1])
            null = re.search(r"and (-?\d+) here", notes)
            for record, row in zip(source, made):
                wanted = record[place]
                if kind == "INT":
                    wanted = null[1] if wanted.strip() in UNKNOWN else str(int(Decimal(wanted) * times))
                self.assertEqual(wanted, row[name], (path, name))

    @NEEDS_PROGRAM
    def test_files(self):
        found = [given for given in FILES if os.path.exists(given[0])]
        if not found:
            self.skipTest("none of the packages python3-statsmodels, python3-vega-datasets and r-base-core is installed")
        for path, words, reading in found:
            with self.subTest(path):
                self.check_file(path, words, reading)

    @NEEDS_PROGRAM
    @unittest.skipUnless(shutil.which("Rscript"), "r-base-core isn't installed")
    def test_data_of_r(self):
        for name, expression, reading in R_FILES:
            with self.subTest(name):
                made = subprocess.run(["Rscript", "--vanilla", "-e", expression], cwd=self.folder, capture_output=True, check=False)
                if made.returncode != 0 and "library(" in expression:
                    continue
                self.assertEqual(0, made.returncode, made.stderr)
                self.check_file(os.path.join(self.folder, name + ".csv"), (), reading)

    @NEEDS_PROGRAM
    @unittest.skipUnless(os.path.isdir(ISO), "iso-codes isn't installed")
    def test_iso_codes(self):
        """Codes stay as they are: that of Namibia is NA, and numbers of countries begin with 0."""
        for name, key in (("iso_3166-1", "3166-1"), ("iso_4217", "4217")):
            with open(ISO + name + ".json", encoding="utf-8") as file:
                entries = json.load(file)[key]
            heads = sorted({head for entry in entries for head in entry})
            path = os.path.join(self.folder, name + ".csv")
            with open(path, "w", encoding="utf-8", newline="") as file:
                csv.writer(file).writerows([heads, *([entry.get(head, "") for head in heads] for entry in entries)])
            self.check_file(path)
        with open(os.path.join(self.folder, "iso_3166_1.table.csv"), encoding="utf-8", newline="") as file:
            rows = {row["name"]: row for row in csv.DictReader(file)}
        self.assertEqual(("NA", "516"), (rows["Namibia"]["alpha_2"], rows["Namibia"]["numeric"]))
        self.assertEqual("004", rows["Afghanistan"]["numeric"])


if __name__ == "__main__":
    unittest.main()
