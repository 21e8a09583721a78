"""Events of a journal as a page of HTML; `tools/page` is the program."""
