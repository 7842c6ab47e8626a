"""A second checker, written from README.md, docs/ and examples/ alone, to be compared with the programs."""
