"""Tests of objects. `sources` has C sources; `elf_builder` and `btf_builder` build objects that clang does not write."""
