"""What the scripts `program`, `suite`, `listing`, `report`, `tell`, `help`, `adopt`, `change`, `ci_lines`, `study` and
`disk_calls` stand on.

- `crates`: the crates that the program is built from, and a sum over their files
- `kept`: the programs that were built, each under a name with that sum
- `building`, `progress`, `interrupts`: how one is proved and built, how far that is, and signals in the meantime
- `suites`: a suite of a folder of tests, a suite for people, and a history held against what a folder expects
- `listing`: what tests cross of a source, as a listing, an lcov trace and a graph; `points` reads its points and edges
- `refusals`: what a refusal of `dejavu` means, as a message for people; `words` has its texts, each once
- `change`: what a change does to the tests; `settings` reads dejavu.toml, `revisions` has the files of a version, `sides`
  makes a source and a suite of them, `runs` calls `dejavu`, `walks` reads where versions part, `histories` are kept,
  `compare` holds two against each other, `steps` says on a terminal what is done, and `reports`, `github` and the
  package `page` tell the outcome
- `ci`: the lines of docs/ci.md, and the clones in which they are run
- `maps`: from places of a unit to those of the files of which it was made
- `traced`: a program under strace, in which chosen calls of the system fail
- `programs`: a program whose output is taken, or passed on with its status
- `formats`: suites, and histories of version 3
- `limits`: the greatest numbers of the formats
- `check`: whether a unit does what the files do of which `adopt` made it
- `examples`: the programs of examples/adopt, and what was found by hand about their changes
- `environment`: libraries beside Python's own, which pip puts into a folder of the repository where they are missing
- `files`, `console`, `errors`: files that appear whole, what is written for people, what keeps a script from its work

It wants Python 3.8, for what stands on `environment` the libraries that are named there, and for `settings` before
Python 3.11 the library tomli.
"""
