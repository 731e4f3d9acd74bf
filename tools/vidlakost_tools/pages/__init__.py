"""Pages and pictures that are made from the sources and from reports."""
