"""The page to try marches on: its questions and its server."""
