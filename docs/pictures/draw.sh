#!/usr/bin/env bash
# Draws the pictures from the data files beside this script. It wants gnuplot. batch.svg is drawn by hand.
set -euo pipefail
cd "$(dirname "$0")"
python3 rates.py > rates.dat
for picture in waits rates sizes; do
    gnuplot "$picture.gp"
done
