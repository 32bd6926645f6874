"""What builds, releases and lints gist. Each command in dev/ is a module here, with `-` written as `_`; these serve several:

sources         the repository: its files, crates, version and release
toolchain       the toolchain's library of commands
released        the released archive: its checksum and its files
shared_library  libgist.so, made from libgist.a, and gist.pc
program         the program to test: the options that name it
tally           checks that passed and failed
documents       the repository's pages, and the code that they show
mutation        mutants: reading, choosing, trying and judging them
"""
