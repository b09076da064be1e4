"""What the program prints of the samples."""
