#!/usr/bin/python3
"""Writes data sets of people from Debian's Python packages into a folder, as users of pandas write them. bench/datasets.sh calls this.

    write.py FOLDER
"""
import pathlib
import sys

import sklearn.datasets
import statsmodels.api as models


def main(folder):
    fair, anes96, randhie, heart = (getattr(models.datasets, name).load_pandas().data for name in ("fair", "anes96", "randhie", "heart"))
    fair.to_csv(folder / "fair.csv")  # an index without a title
    anes96.to_csv(folder / "anes96.csv", index=False)  # whole numbers as 3.0
    randhie.to_csv(folder / "randhie.csv", index=False, sep=";", decimal=",")
    heart.to_csv(folder / "heart.csv", index=False)
    diabetes = sklearn.datasets.load_diabetes(as_frame=True, scaled=False).frame
    diabetes.to_csv(folder / "diabetes.csv", index=False, encoding="utf-16")


if __name__ == "__main__":
    main(pathlib.Path(sys.argv[1]))
