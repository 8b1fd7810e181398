"""What from-lackey is made of: lines are read, regions told or guessed, pages laid out, and a trace printed."""
