"""What is said below each message of the program: why, and what to write instead."""
