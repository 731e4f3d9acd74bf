"""What `bench/run` measures: the shared parts, and a module for each kind of measure."""
