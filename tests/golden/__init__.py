"""What the program prints, byte for byte."""
