"""What all scripts share: outcomes, help, printed lines, and files of measured numbers."""
