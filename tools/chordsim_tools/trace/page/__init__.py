"""The page of a run for a browser: its data, and the files that it is put together from."""
