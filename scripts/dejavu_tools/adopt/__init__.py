"""What `scripts/adopt` stands on: several files of everyday C become one source of the language (docs/language.md).

- `options`, `places`, `obstacles`, `words`: what is asked for, where things stand, what the language has nothing for
- `preprocess` (over the headers in `include`), `extensions`, `parse`, `old_style`: a file as a tree whose nodes know their
  places; `items`, `unread`: what can't be read of it
- `types`, `literals`, `constants`, `declarations`, `symbols`, `initialisers`: what declarations and constants mean
- `program`: all files together; `names`: names that nothing else has
- `effects`, `file_pointers`, `offsets`, `endings`: what functions read and write, which pointers of file scope have one
  array, which array parameters have an offset, and whether control comes to an end
- `values`, `output`: expressions and lines of the unit
- `lower_places`, `lower_expressions`, `lower_calls`, `lower_memory`, `lower_printing`, `lower_statements`, `body`:
  functions of the files as functions of the unit
- `unit`: what these stand on; `library`: functions of the C library, whose text is in `library.c`
- `translate`: all of it; `write`: the unit's bytes, and the map of its places; `measure`: how large the unit is
"""
