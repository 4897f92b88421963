#!/bin/sh
# Takes 25 data sets of people, as users of R and pandas write them, the way of an office: from the file through each step of front/prepare.py to
# totals over all, and to totals by each public column. Prints a line for each, and ends with 1 if a step fails or a total over all isn't
# answered. It isn't in the gate. Build the program first: demo/run.sh does. The data are those of packages of Debian 12:
#
#   apt-get install --no-install-recommends r-base-core r-cran-aer r-cran-cardata r-cran-caret r-cran-dplyr r-cran-mass r-cran-survey \
#       r-cran-survival python3-sklearn python3-statsmodels
#   bench/datasets.sh
. "$(dirname "$0")/in_memory.sh"
. "$(dirname "$0")/setup.sh"
mkdir data
Rscript "$here/datasets/write.R" data || exit 1
/usr/bin/python3 -W ignore "$here/datasets/write.py" data || exit 1
/usr/bin/python3 "$here/datasets.py" "$here/datasets/choices.toml" data "$program"
