"""What each part does by itself, without the program."""
