"""What the program answers at its limits, compared with plain lists."""
