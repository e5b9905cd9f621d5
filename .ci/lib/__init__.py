"""What the checks of `.ci/checks` share: programs and how they are run, reports, rows of data, preloaded libraries, stories."""
