"""The merge gate. `.ci/run` starts it."""
