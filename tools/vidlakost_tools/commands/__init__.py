"""The tools, a module each, with `main(arguments)`."""
