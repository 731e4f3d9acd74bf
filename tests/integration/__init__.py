"""What the launcher and the tools do with right, wrong and hostile input, with the program and with simulators."""
