"""What a refusal of the program means in a call, shown as a compiler shows it."""
