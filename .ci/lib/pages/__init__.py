"""The checks of the pages, which `.ci/checks/pages.py` starts: contracts and definitions, claims, layers, prose, quotes, words."""
