"""The tests of the tools for people; `tools/test` runs them."""
