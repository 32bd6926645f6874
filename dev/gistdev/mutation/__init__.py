"""Mutation tests of the proved crates, for dev/mutants, dev/generated-mutants and dev/test-mutants.

source    the functions of a source file
edits     the mutants of a crate, and the sources with a mutant in them
basis     a checksum of everything that the verdicts on a crate's mutants depend on
cache     verdicts of earlier runs on this machine
judge     what the checker's output says about a mutant
choose    which mutants a run tries, and in which order
run       checks that try several mutants at once
"""
