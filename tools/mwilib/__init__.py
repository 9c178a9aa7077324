"""The parts of tools/mwi, a front program beside `mw`; docs/MWI.md is its page."""
