"""Pages printed from the sources, and what tools/documents checks of the documents."""
