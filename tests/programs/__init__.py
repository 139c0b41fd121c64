"""The words, files, streams, messages and statuses of the programs."""
