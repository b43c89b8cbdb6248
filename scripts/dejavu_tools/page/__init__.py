"""The page of a change: one file of HTML that needs nothing from outside and no script.

- `document`: the page, made of its sections, with `style.css`
- `sources`: what the change does to the sources, with the places at which the versions part
- `outputs`: the tests that differ or fail, as expected, before and now
- `steps`: how the walk comes to each place at which the versions part
- `tests`: the tables of all tests
- `places`: the files of a version, what tests reach of them, and from places of the unit to their lines
- `lines`: the lines of two texts beside each other
- `markup`: texts and elements of HTML
"""
