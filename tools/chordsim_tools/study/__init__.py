"""The tool `study`: runs many settings and seeds, and makes tables, plots and a page of them."""
